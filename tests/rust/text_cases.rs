// House texts and rule sheets read through the static library, beside a plain reader: the listed damaged texts of tests/texts, every size and
// one past it, and random bytes and edits. The answer, the header, the counts and every cell of every lent table are compared.
// `text_cases [SEED [COUNT]]`; `text_cases list` writes out the listed cases. Built `--cfg alone`, the plain reader alone is asked.
mod shared;
#[path = "shared/reader.rs"]
mod reader;
#[path = "shared/texts.rs"]
mod texts;
use reader::{read_module, read_sheet, too_short, Module, MOST_ENTRIES, SHEET_CELLS};
#[cfg(not(alone))]
use shared::bench;
use shared::{cases::seeded, tables::*};
use std::collections::BTreeSet;
use texts::*;

// How many random texts are tried where none is asked.
const MANY: usize = 200_000;

// Behind a pipe one in so many of the listed texts is tried: each call carries the eight tables there and back.
#[cfg(not(alone))]
fn every() -> usize {
    if bench::is_served() { 8 } else { 1 }
}
#[cfg(alone)]
fn every() -> usize {
    1
}

// ---- lent tables, and what they are to hold afterwards

#[derive(Clone, PartialEq)]
struct Lent {
    t: Vec<u64>,
    v: Vec<u64>,
    o: Vec<u32>,
    a: Vec<u32>,
    b: Vec<u32>,
    r: Vec<u32>,
    f: Vec<u32>,
    l: Vec<u64>,
}

// The cells of a full table, the list entries last.
fn full(table: usize) -> usize {
    if table < 7 { SIZES[table] as usize * WIDTHS[table] } else { MOST_ENTRIES }
}

impl Lent {
    fn of(cells: [usize; 8], held: u64) -> Lent {
        let (wide, narrow) = (|k: usize| vec![held; cells[k]], |k: usize| vec![held as u32; cells[k]]);
        Lent { t: wide(0), v: wide(1), o: narrow(2), a: narrow(3), b: narrow(4), r: narrow(5), f: narrow(6), l: wide(7) }
    }
    fn cells(&self) -> [usize; 8] {
        [self.t.len(), self.v.len(), self.o.len(), self.a.len(), self.b.len(), self.r.len(), self.f.len(), self.l.len()]
    }
    fn fill(&mut self, held: u64) {
        [&mut self.t, &mut self.v, &mut self.l].into_iter().for_each(|x| x.fill(held));
        [&mut self.o, &mut self.a, &mut self.b, &mut self.r, &mut self.f].into_iter().for_each(|x| x.fill(held as u32));
    }
    // A text's entries at the front of each table; what stands past them is kept.
    fn hold(&mut self, x: &Tables) {
        fn front<T: Copy>(to: &mut [T], from: &[T]) {
            to[..from.len()].copy_from_slice(from);
        }
        front(&mut self.t, &x.t);
        front(&mut self.v, &x.v);
        front(&mut self.o, &x.o);
        front(&mut self.a, &x.a);
        front(&mut self.b, &x.b);
        front(&mut self.r, &x.r);
        front(&mut self.f, &x.f);
        front(&mut self.l, &x.l);
    }
}

// The lent tables, what they are due to hold, and the plain reader's module. A refusal zeroes them, and zeros are due until something is read.
struct Desk {
    lent: Lent,
    due: Lent,
    zero: bool,
    module: Module,
}

impl Desk {
    fn new(cells: [usize; 8], held: u64) -> Desk {
        let lent = Lent::of(cells, held);
        Desk { due: lent.clone(), lent, zero: held == 0, module: Module::default() }
    }
    fn refill(&mut self, held: u64) {
        self.lent.fill(held);
        self.due.fill(held);
        self.zero = held == 0;
    }
    fn plain(&mut self, text: &[u8]) -> Answer {
        match too_short(self.due.cells()).map_or_else(|| read_module(text, &mut self.module), Err) {
            Ok(()) => {
                self.due.hold(&self.module.tables);
                self.zero = false;
                ACCEPTED
            }
            Err(why) => {
                if !self.zero {
                    self.due.fill(0);
                }
                self.zero = true;
                why
            }
        }
    }
    // The plain reader's answer, and what the bench does otherwise.
    fn read(&mut self, text: &[u8]) -> (Answer, Result<(), String>) {
        let answer = self.plain(text);
        (answer, self.compare(text, answer))
    }
    #[cfg(alone)]
    fn compare(&mut self, _: &[u8], _: Answer) -> Result<(), String> {
        Ok(())
    }
    #[cfg(not(alone))]
    fn compare(&mut self, text: &[u8], due: Answer) -> Result<(), String> {
        let (mut header, mut counts, mut answer) = ([7; 2], [7; 7], [99; 3]);
        let x = &mut self.lent;
        bench::read_module(
            text, &mut x.t, &mut x.v, &mut x.o, &mut x.a, &mut x.b, &mut x.r, &mut x.f, &mut x.l, &mut header, &mut counts, &mut answer,
        );
        let (target, n) = if due == ACCEPTED { ([self.module.version, self.module.sm], self.module.tables.n) } else { ([0; 2], [0; 7]) };
        same("answer", due, answer)?;
        same("header", target, header)?;
        same("counts", n, counts)?;
        let (x, y) = (&self.lent, &self.due);
        let tables = [x.t == y.t, x.v == y.v, x.o == y.o, x.a == y.a, x.b == y.b, x.r == y.r, x.f == y.f, x.l == y.l];
        match tables.iter().position(|same| !same) {
            Some(k) => Err(format!("table {} differs after {answer:?}", k + 1)),
            None => Ok(()),
        }
    }
}

#[cfg(not(alone))]
fn same<T: PartialEq + std::fmt::Debug>(what: &str, plain: T, bench: T) -> Result<(), String> {
    if plain == bench { Ok(()) } else { Err(format!("{what}: plainly {plain:?}, the bench {bench:?}")) }
}

// A sheet in a slice of some cells that hold something.
fn sheet(text: &[u8], cells: usize, held: u64) -> (Answer, Result<(), String>) {
    let mut due = vec![held; cells];
    let read = if cells < SHEET_CELLS { Err([13, 0, SHEET_CELLS as u64]) } else { read_sheet(text) };
    let answer = match read {
        Ok(sheet) => {
            due[..SHEET_CELLS].copy_from_slice(&sheet);
            ACCEPTED
        }
        Err(why) => {
            due.fill(0);
            why
        }
    };
    #[cfg(alone)]
    return (answer, Ok(()));
    #[cfg(not(alone))]
    {
        let (mut lent, mut said) = (vec![held; cells], [99; 3]);
        bench::read_sheet(text, &mut lent, &mut said);
        let held = if lent == due { Ok(()) } else { Err(format!("the sheet differs after {said:?}")) };
        (answer, same("answer", answer, said).and(held))
    }
}

// ---- the parts of the test

fn fail(seed: u64, what: &str, text: &[u8], said: &str) -> ! {
    println!("seed {seed}: {what}: {said}, of the text\n{}", shown(text));
    std::process::exit(1);
}

// What an accepted text's tables write is the text again, where every name has a number and the target is no negative one.
fn written_again(m: &Module, text: &[u8]) -> bool {
    let told = m.tables.a.chunks(8).all(|a| a[0] > 0) && (m.version | m.sm) >> 63 == 0;
    !told || m.tables.text(m.version, m.sm).as_bytes() == text
}

fn listed(seed: u64) -> usize {
    let mut desk = Desk::new(std::array::from_fn(full), 0xa5a5_a5a5_a5a5_a5a5);
    let mut faults = BTreeSet::new();
    let mut many = 0;
    for (file, is_sheet) in [("tests/texts/module.txt", false), ("tests/texts/sheet.txt", true)] {
        for case in list_of(file).into_iter().skip(seed as usize % every()).step_by(every()) {
            desk.refill(0xa5a5_a5a5_a5a5_a5a5);
            let (answer, agreed) = if is_sheet { sheet(&case.text, SHEET_CELLS + 2, 5) } else { desk.read(&case.text) };
            if answer != case.answer {
                fail(seed, file, &case.text, &format!("listed {:?}, plainly {answer:?}; {}", case.answer, case.why));
            }
            agreed.unwrap_or_else(|said| fail(seed, file, &case.text, &said));
            if !is_sheet && answer == ACCEPTED && !written_again(&desk.module, &case.text) {
                fail(seed, file, &case.text, "its tables do not write it again");
            }
            if let [15, line, field] = answer {
                let tag = case.text.split(|b| *b == b'\n').nth(line as usize - 1).unwrap().split(|b| *b == b'\t').next().unwrap();
                faults.insert((is_sheet, if field == 1 { vec![] } else { tag.to_vec() }, field));
            }
            many += 1;
        }
    }
    // each field of each kind of line is the bad one somewhere
    let kinds = [("tile", 4), ("T", 7), ("V", 4), ("O", 5), ("A", 4), ("B", 3), ("R", 2), ("F", 2)].map(|k| (false, k));
    let sheets = [("sheet", 2), ("c", 3), ("m", 3), ("p", 3), ("w", 3), ("t", 2)].map(|k| (true, k));
    for (is_sheet, (tag, fields)) in kinds.into_iter().chain(sheets) {
        for field in (0..=fields).filter(|f| *f != 1 && every() == 1) {
            assert!(faults.contains(&(is_sheet, tag.into(), field)), "no listed case damages field {field} of {tag}");
        }
    }
    many
}

fn edges(seed: u64) -> usize {
    let exact: [usize; 8] = std::array::from_fn(full);
    let mut desk = Desk::new(exact, 3);
    let cases = size_cases();
    for (what, text, due) in &cases {
        desk.refill(3);
        let (answer, agreed) = desk.read(text);
        if answer != *due {
            fail(seed, what, text, &format!("due {due:?}, plainly {answer:?}"));
        }
        agreed.unwrap_or_else(|said| fail(seed, what, text, &said));
    }
    // lent tables one entry short, one cell short, none at all, and longer ones, two of them short too
    let good = b"tile\t1\t4\t100\nF\t0\n";
    let texts: [&[u8]; 3] = [good, b"", b"x"];
    let mut lents = 0;
    for table in 0..8 {
        let (size, width) = if table < 7 { (SIZES[table], WIDTHS[table]) } else { (MOST_ENTRIES as u64, 1) };
        for cells in [0, 1, full(table) - width, full(table) - 1] {
            for also in table..8 {
                let mut lent = exact;
                lent[table] = cells;
                if also != table {
                    lent[also] -= 1;
                }
                for text in texts {
                    let (answer, agreed) = Desk::new(lent, 9).read(text);
                    assert!(answer == [13, 0, size], "{answer:?} of table {} with {cells} cells", table + 1);
                    agreed.unwrap_or_else(|said| fail(seed, "a short table", text, &said));
                    lents += 1;
                }
            }
        }
        for text in texts {
            let mut lent = exact;
            lent[table] += 1 + table;
            Desk::new(lent, 9).read(text).1.unwrap_or_else(|said| fail(seed, "a long table", text, &said));
            lents += 1;
        }
    }
    for (cells, due) in [(0, 13), (1, 13), (319, 13), (320, 0), (321, 0), (1000, 0)] {
        let (answer, agreed) = sheet(b"sheet\t1\nc\t3\t1\n", cells, 9);
        assert!(answer[0] == due);
        agreed.unwrap_or_else(|said| fail(seed, "a sheet's cells", b"", &said));
        lents += 1;
    }
    for (what, text, due) in sheet_size_cases() {
        let (answer, agreed) = sheet(&text, SHEET_CELLS, 9);
        assert!(answer == due, "{what}: due {due:?}, plainly {answer:?}");
        agreed.unwrap_or_else(|said| fail(seed, what, &text, &said));
        lents += 1;
    }
    cases.len() + lents
}

fn drawn(seed: u64, many: usize) -> [usize; 4] {
    let mut r = seeded(seed);
    let mut desk = Desk::new(std::array::from_fn(full), 0);
    let mut codes = [0; 4];
    for _ in 0..many {
        let is_sheet = r.once_in(4);
        let text = if r.once_in(8) { random_bytes(&mut r, is_sheet) } else { edited(&mut r, is_sheet) };
        let (answer, agreed) = if is_sheet {
            let held = r.next();
            sheet(&text, SHEET_CELLS + r.below(3) as usize - r.once_in(200) as usize, held)
        } else {
            // the tables hold what the last text left in them, now and then something else, and are seldom of another length
            if r.once_in(32) {
                desk.refill(r.next());
            }
            if r.once_in(400) {
                desk = Desk::new(std::array::from_fn(|k| full(k) + r.below(3) as usize - r.once_in(100) as usize), r.next());
            }
            desk.read(&text)
        };
        agreed.unwrap_or_else(|said| fail(seed, "random", &text, &said));
        if !is_sheet && answer == ACCEPTED && !written_again(&desk.module, &text) {
            fail(seed, "random", &text, "its tables do not write it again");
        }
        codes[match answer[0] {
            0 => 0,
            1 => 1,
            13 => 2,
            _ => 3,
        }] += 1;
    }
    codes
}

fn main() {
    let arg: Vec<String> = std::env::args().skip(1).collect();
    if arg.first().is_some_and(|a| a == "list") {
        return ["tests/texts/module.txt", "tests/texts/sheet.txt"].iter().for_each(|file| list_of(file).iter().for_each(Case::print));
    }
    let now = || std::time::SystemTime::now().duration_since(std::time::UNIX_EPOCH).unwrap().as_nanos() as u64 % 1_000_000_000_000;
    let seed = arg.first().map_or_else(now, |s| s.parse().unwrap());
    let many = arg.get(1).map_or(MANY, |n| n.parse().unwrap());
    let (listed, edges) = (listed(seed), edges(seed));
    let codes = drawn(seed, many);
    if many >= 2000 && codes.contains(&0) {
        println!("seed {seed}: accepted, codes 1, 13 and 15: {codes:?}, and one never came");
        std::process::exit(1);
    }
    let beside = if cfg!(alone) { "by the plain reader alone" } else { "as the plain reader reads them" };
    let [good, size, short, form] = codes;
    println!("seed {seed}: {listed} listed texts, {edges} at the sizes, {many} random ones {beside}: \
        {good} accepted, codes 1, 13 and 15: {size} {short} {form}");
}
