// Random modules, the largest among them, whose operands mostly have numbers: their house texts for the running Rust, and what the bench
// answers of the same tables (codes 6, 7, 8, or the numbers of each function). `numbering_cases SEED COUNT TEXTS ANSWERS` writes both; the
// Rust's lines `num` are to be the same. Each text has its rule sheet before it.
mod shared;
use shared::{bench, cases, large::nested_module, sheet, tables::*, visible::draw_operands};

fn module(r: &mut Random) -> Tables {
    if r.once_in(200) {
        let operations = r.one_of(&[2048, 2048, 2047, 1000, 100]);
        return nested_module(operations, 32, r);
    }
    let mut x = random_module(r);
    let stray = r.one_of(&[10, 100, 1000, 100000]);
    draw_operands(&mut x, r, stray);
    // now and then a declared result loses its value: nobody claims it, or a result is claimed that nothing declares
    if r.once_in(3) && x.n[VALUES] > 0 {
        let v = r.below(x.n[VALUES]) as usize * 4;
        match r.below(2) {
            0 => x.v[v + 1..v + 4].fill(0),
            _ => x.v[v + 3] += 7 * x.v[v + 1],
        }
    }
    x
}

// Counts that mostly are those of some operation.
fn counts(x: &Tables, r: &mut Random) -> sheet::Sheet {
    let mut s = sheet::empty();
    if r.once_in(2) {
        for _ in 0..r.below(5) {
            let i = r.below(x.n[OPERATIONS]) as usize * 16;
            sheet::fix(&mut s, x.o[i] as usize, x.o[i + 2] as u64 + r.once_in(10) as u64);
        }
    }
    s
}

const HELD: u64 = 0x5eed;

// A lent list shorter than what is needed is refused with what is needed, and one just as long is enough; a refusal writes nothing.
fn answer(x: &Tables, sheet: &[u64]) -> String {
    let functions = x.n[FUNCTIONS] as usize;
    let (room, rows) = (x.all_operands() + 3, functions + 3);
    let (mut numbers, mut lengths) = (vec![HELD; room], vec![HELD; rows]);
    let said = bench::numbering(x, sheet, &mut numbers, &mut lengths);
    if said != ACCEPTED {
        assert!(numbers.iter().chain(&lengths).all(|n| *n == HELD), "a refusal wrote");
        return cases::line("num", said);
    }
    let needed = lengths[..functions].iter().sum::<u64>() as usize;
    assert!(numbers[needed..].iter().chain(&lengths[functions..]).all(|n| *n == HELD), "entries past the list were written");
    let with = |n: usize, m: usize| {
        let (mut numbers, mut lengths) = (vec![HELD; n], vec![HELD; m]);
        let said = bench::numbering(x, sheet, &mut numbers, &mut lengths);
        assert!(said == ACCEPTED || numbers.iter().chain(&lengths).all(|n| *n == HELD), "a refusal wrote");
        (said, numbers)
    };
    assert!(with(needed, functions) == (ACCEPTED, numbers[..needed].to_vec()), "lists just as long as needed");
    if needed > 0 {
        assert_eq!(with(needed - 1, rows).0, [13, 0, needed as u64]);
    }
    if functions > 0 {
        assert_eq!(with(room, functions - 1).0, [13, 0, functions as u64]);
    }
    let mut rest = &numbers[..needed];
    let mut line = format!("num|ok|{functions}");
    for n in &lengths[..functions] {
        let (now, later) = rest.split_at(*n as usize);
        line += "|";
        line += &now.iter().map(u64::to_string).collect::<Vec<_>>().join(",");
        rest = later;
    }
    line + "\n"
}

fn main() {
    let draw = |r: &mut Random| {
        let x = cases::passing(r, module);
        let s = counts(&x, r);
        (sheet::text(&s) + &x.text(4, 100), (x, s))
    };
    cases::write_cases(&cases::arguments(), draw, |(x, s)| answer(x, s));
}
