// Texts for the readers: the lists of tests/texts, texts at the sizes and one past them, and random ones.
use crate::reader::{MOST_BYTES, MOST_ENTRIES};
use crate::shared::tables::*;
use std::collections::HashMap;

// ---- the listed texts (tests/texts/README.md says how they are written)

pub struct Case {
    pub text: Vec<u8>,
    pub answer: Answer,
    pub why: String,
}

// A text as the lists write it; of a long one the front.
pub fn shown(text: &[u8]) -> String {
    let byte = |b: &u8| match b {
        b'\t' => "|".into(),
        b'\n' => "/".into(),
        b' ' => "\\s".into(),
        b'\r' => "\\r".into(),
        0 => "\\0".into(),
        b'/' | b'|' | b'\\' | b'{' | b'}' => format!("\\x{b:02X}"),
        33..=126 => (*b as char).to_string(),
        _ => format!("\\x{b:02X}"),
    };
    let front: String = text.iter().take(1000).map(byte).collect();
    if text.len() > 1000 { format!("{front}... ({} bytes)", text.len()) } else { front }
}

fn bytes_of(written: &str) -> Vec<u8> {
    let mut out = vec![];
    let mut rest = written.bytes();
    while let Some(b) = rest.next() {
        match b {
            b'|' => out.push(b'\t'),
            b'/' => out.push(b'\n'),
            b'\\' => match rest.next().unwrap() {
                b's' => out.push(b' '),
                b'r' => out.push(b'\r'),
                b'0' => out.push(0),
                b'e' => {}
                b'x' => {
                    let digits = [rest.next().unwrap(), rest.next().unwrap()];
                    out.push(u8::from_str_radix(std::str::from_utf8(&digits).unwrap(), 16).unwrap());
                }
                other => panic!("no such byte: \\{}", other as char),
            },
            _ => out.push(b),
        }
    }
    out
}

impl Case {
    pub fn print(&self) {
        match self.answer {
            ACCEPTED => println!("ok {}  {}", shown(&self.text), self.why),
            [code, id, detail] => println!("no|{code}|{id}|{detail} {}  {}", shown(&self.text), self.why),
        }
    }
}

// A part as it is written, and the key of the sentence that decides it.
type Part = (String, String);

// Every text that a part with `{NAME}`s stands for; the last key stands.
fn spread(part: &str, key: &str, parts: &HashMap<String, Vec<Part>>) -> Vec<Part> {
    let Some((before, after)) = part.split_once('{') else { return vec![(part.into(), key.into())] };
    let (name, after) = after.split_once('}').unwrap();
    let inside = parts.get(name).unwrap_or_else(|| panic!("no part {name}"));
    let put = |(value, own): &Part| spread(&format!("{before}{value}{after}"), if own.is_empty() { key } else { own }, parts);
    inside.iter().flat_map(put).collect()
}

pub fn list_of(file: &str) -> Vec<Case> {
    let (mut said, mut parts, mut cases) = (HashMap::new(), HashMap::<String, Vec<Part>>::new(), vec![]);
    for line in std::fs::read_to_string(file).unwrap().lines().filter(|l| !l.is_empty() && !l.starts_with('#')) {
        let word: Vec<&str> = line.split_whitespace().collect();
        match word[0] {
            "said" => {
                said.insert(word[1].to_string(), word[2..].join(" "));
            }
            "let" => {
                let spread = spread(word[2], word.get(3).unwrap_or(&""), &parts);
                parts.entry(word[1].into()).or_default().extend(spread);
            }
            answer => {
                let numbers: Vec<u64> = answer.split('|').skip(1).map(|n| n.parse().unwrap()).collect();
                let answer = if answer == "ok" { ACCEPTED } else { numbers.try_into().unwrap() };
                for (text, key) in spread(word[1], "", &parts) {
                    let key = word.get(2).map_or(key.as_str(), |own| own);
                    let why = said.get(key).unwrap_or_else(|| panic!("no sentence decides {line}")).clone();
                    cases.push(Case { text: bytes_of(&text), answer, why });
                }
            }
        }
    }
    cases
}

// ---- the sizes

type Sized = (&'static str, Vec<u8>, Answer);

const HEAD: &str = "tile\t1\t4\t100\n";
const FORM: u64 = 15;

// A line of each table without any list entry.
const LINES: [&str; 7] = ["T\t0\t0\t0\t0\t-1\t\n", "V\t0\t\t\n", "O\t0\t\t\t\n", "A\tn\tx\t\n", "B\t\t\n", "R\t\n", "F\t0\n"];

fn zeros(n: usize) -> String {
    vec!["0"; n].join(",")
}

fn before(table: usize) -> String {
    format!("{HEAD}{}", if table == ATTRIBUTES { LINES[OPERATIONS] } else { "" })
}

pub fn size_cases() -> Vec<Sized> {
    let mut cases: Vec<Sized> = vec![];
    let mut case = |what, text: String, answer| cases.push((what, text.into_bytes(), answer));
    for table in 0..7 {
        let (size, number) = (SIZES[table] as usize, table as u64 + 1);
        let text = |n: usize, last: &str| format!("{}{}{last}", before(table), LINES[table].repeat(n));
        let lines = size as u64 + 2 + (table == ATTRIBUTES) as u64;
        case("a table at its size", text(size, ""), ACCEPTED);
        case("a table one past its size", text(size + 1, ""), [1, number, size as u64]);
        case("one past, then a bad line", text(size + 1, "x\n"), [1, number, size as u64]);
        case("one past in a bad line", text(size, &LINES[table].replace("\t", "\tx\t")), [FORM, lines, 0]);
        case("one past without LF", text(size, LINES[table].trim_end_matches('\n')), [FORM, lines, 0]);
        case("a table at its size, then an unknown line", text(size, "x\n"), [FORM, lines, 1]);
    }
    case("a field fault past the size", format!("{HEAD}{}V\tx\t\t\n", LINES[VALUES].repeat(4096)), [FORM, 4098, 2]);
    let two = format!("{HEAD}{}", format!("{}{}", LINES[2], LINES[3].repeat(2048)).repeat(2));
    case("attributes of two operations", two.clone(), ACCEPTED);
    case("attributes of two operations, one more", two + LINES[3], [1, 4, 4096]);
    list_cases(&mut case);
    byte_cases(&mut case);
    cases
}

// List entries: each kind of line at 8,192 in all and one past, absent ones counted.
fn list_cases(case: &mut impl FnMut(&'static str, String, Answer)) {
    let most = MOST_ENTRIES;
    let with = |n: usize, rest: &str| format!("{HEAD}O\t0\t\t{}\t\n{rest}", zeros(n));
    for (what, n, answer) in [("list entries at their size", most, ACCEPTED), ("list entries one past", most + 1, [1, 3, 0])] {
        case(what, with(n, ""), answer);
        case(what, format!("{HEAD}O\t0\t{}\t{}\t{}\n", zeros(n - 200), zeros(100), zeros(100)), answer);
        case(what, format!("{HEAD}O\t0\t{}\t\t\n", zeros(n)), answer);
        case(what, format!("{HEAD}O\t0\t\t\t{}\n", zeros(n)), answer);
        case(what, format!("{HEAD}B\t{}\t\n", zeros(n)), if n == most { ACCEPTED } else { [1, 5, 0] });
        case(what, format!("{HEAD}B\t{}\t{}\n", zeros(n - 1), zeros(1)), if n == most { ACCEPTED } else { [1, 5, 0] });
        case(what, format!("{HEAD}R\t{}\n", zeros(n)), if n == most { ACCEPTED } else { [1, 6, 0] });
        for form in ["a", "z", "p", "s"] {
            case(what, format!("{HEAD}O\t0\t\t\t\nA\tn\t{form}\t{}\n", zeros(n)), if n == most { ACCEPTED } else { [1, 4, 0] });
        }
    }
    // a line that takes `n` entries, after so many that they just fit or pass by one
    for (line, n, table) in [
        ("O\t0\t0\t0\t0\n", 3, 3), ("A\tn\ti\t0\n", 1, 4), ("A\tn\tb\t0\n", 1, 4), ("A\tn\ta\t0,0\n", 2, 4), ("A\tn\tz\t0,0\n", 2, 4),
        ("A\tn\tp\t0,0\n", 2, 4), ("A\tn\td\t8,,\n", 3, 4), ("A\tn\td\t8,1,\n", 3, 4), ("A\tn\td\t8,1,1\n", 3, 4), ("A\tn\ts\t0,0\n", 2, 4),
        ("A\tn\tr\t,\n", 2, 4), ("A\tn\tr\t0,\n", 2, 4), ("A\tn\tr\t,0\n", 2, 4), ("B\t0\t0\n", 2, 5), ("B\t0,0\t\n", 2, 5),
        ("R\t0,0\n", 2, 6),
    ] {
        let entry = (table == 3) as u64;
        case("the last list entries", with(most - n, line), ACCEPTED);
        case("one list entry too many", with(most - n + 1, line), [1, table, entry]);
        case("all list entries too many", with(most, line), [1, table, entry]);
        case("the last list entries, then one line more", with(most - n, &format!("{line}R\t0\n")), [1, 6, (table == 6) as u64]);
    }
    for (what, line) in [
        ("an attribute without numbers", "A\tn\tx\t\n"), ("an attribute with no numbers", "A\tn\ta\t\n"), ("an empty operation", LINES[2]),
        ("an empty block", LINES[4]), ("an empty region", LINES[5]), ("a function", LINES[6]),
    ] {
        case(what, with(most, line), ACCEPTED);
    }
    let dims = "T\t1\t4\t0\t0\t-1\t1,2,3,4,5,6,7,8\nV\t0\t0\t0\n";
    case("dims and owners are no list entries", format!("{HEAD}{dims}O\t0\t\t{}\t\nF\t0\n", zeros(most)), ACCEPTED);
    case("a field fault past the list entries", with(most, "A\tn\td\t8,,,\n"), [FORM, 3, 4]);
    case("list entries past in a full table", format!("{HEAD}{}B\t{}\t\n", LINES[4].repeat(512), zeros(most + 1)), [1, 5, 512]);
    case("a bad item past the list entries", format!("{HEAD}R\t{},01\n", zeros(most + 1)), [FORM, 2, 2]);
}

// A text of so many bytes with its last LF: an attribute's name takes what is missing.
fn of_bytes(n: usize) -> String {
    let most = format!("{HEAD}O\t0\t\t\t\nA\t");
    let name = "n".repeat(n - most.len() - "\tx\t\n".len());
    format!("{most}{name}\tx\t\n")
}

fn byte_cases(case: &mut impl FnMut(&'static str, String, Answer)) {
    let past = [1, 0, 0];
    let full = of_bytes(MOST_BYTES);
    case("65,535 bytes", of_bytes(MOST_BYTES - 1), ACCEPTED);
    case("65,536 bytes", full.clone(), ACCEPTED);
    case("65,537 bytes", of_bytes(MOST_BYTES + 1), past);
    case("65,538 bytes", of_bytes(MOST_BYTES + 2), past);
    case("65,536 bytes without LF", of_bytes(MOST_BYTES + 1).trim_end_matches('\n').into(), [FORM, 3, 0]);
    case("65,537 bytes without LF", of_bytes(MOST_BYTES + 2).trim_end_matches('\n').into(), past);
    for last in ["F", "x", "\n", "F\t0\n", "x\n", "\0"] {
        case("65,536 bytes and a line", format!("{full}{last}"), past);
    }
    case("a bad line, then too many bytes", format!("x\n{full}"), [FORM, 1, 1]);
    case("a bad line that reaches too far", format!("{}x", of_bytes(MOST_BYTES - 1)), [FORM, 4, 0]);
    case("a bad line that reaches too far", format!("{}x\n", of_bytes(MOST_BYTES - 1)), past);
    case("an empty line at the end", format!("{}\n", of_bytes(MOST_BYTES - 1)), [FORM, 4, 1]);
    case("a name past the text", format!("{HEAD}O\t0\t\t\t\nA\t{}\tq\tx\n", "n".repeat(MOST_BYTES)), past);
    case("a line of a mebibyte", "x".repeat(1 << 20), past);
    case("a mebibyte of LFs", "\n".repeat(1 << 20), [FORM, 1, 1]);
    case("a mebibyte of tabs", "\t".repeat(1 << 20), past);
    case("a mebibyte of LFs after a header", format!("{HEAD}{}", "\n".repeat(1 << 20)), [FORM, 2, 1]);
    case("65,536 bytes of LFs", "\n".repeat(MOST_BYTES), [FORM, 1, 1]);
    case("a number of 60,000 digits", format!("{HEAD}F\t{}\n", "1".repeat(60_000)), [FORM, 2, 2]);
    case("a line with 60,000 fields", format!("{HEAD}F{}\n", "\t0".repeat(30_000)), [FORM, 2, 0]);
    case("a list of 60,000 commas", format!("{HEAD}R\t{}\n", ",".repeat(60_000)), [FORM, 2, 2]);
    case("a divisor with 60,000 commas", format!("{HEAD}{}A\tn\td\t{}\n", LINES[2], ",".repeat(60_000)), [FORM, 3, 4]);
    case("endpoints with 60,000 commas", format!("{HEAD}{}A\tn\tr\t{}\n", LINES[2], ",".repeat(60_000)), [FORM, 3, 4]);
    case("an `x` with 60,000 commas", format!("{HEAD}{}A\tn\tx\t{}\n", LINES[2], ",".repeat(60_000)), [FORM, 3, 4]);
    case("30,000 dims", format!("{HEAD}T\t1\t4\t0\t0\t-1\t{}\n", zeros(30_000)), [1, 1, 0]);
    case("30,000 list entries", format!("{HEAD}R\t{}\n", zeros(30_000)), [1, 6, 0]);
}

// A sheet has no room for names: its lines are short, so only a bad one reaches past the text.
pub fn sheet_size_cases() -> Vec<Sized> {
    let line = |n: usize| format!("sheet\t1\nc\t3\t{}", "1".repeat(n - "sheet\t1\nc\t3\t".len())).into_bytes();
    let with = |n: usize, last: &[u8]| [line(n), last.to_vec()].concat();
    let counts = (0..105).map(|k| format!("c\t{k}\t{k}\n"));
    let every: String = counts.chain((0..48).map(|k| format!("{}\t{}\t{k}\n", ["m", "p", "w"][k / 16], k % 16))).collect();
    vec![
        ("every key", format!("sheet\t1\n{every}t\t1\n").into_bytes(), ACCEPTED),
        ("a sheet of 65,536 bytes", with(MOST_BYTES - 1, b"\n"), [FORM, 2, 3]),
        ("a sheet of 65,537 bytes", with(MOST_BYTES, b"\n"), [1, 0, 0]),
        ("a sheet of 65,536 bytes without LF", line(MOST_BYTES), [FORM, 2, 0]),
        ("a sheet of 65,537 bytes without LF", line(MOST_BYTES + 1), [1, 0, 0]),
        ("a bad line, then too many bytes", [b"x\n".to_vec(), line(MOST_BYTES + 1)].concat(), [FORM, 1, 1]),
        ("a sheet line of a mebibyte", vec![b'x'; 1 << 20], [1, 0, 0]),
        ("a sheet of LFs", vec![b'\n'; 1 << 20], [FORM, 1, 1]),
    ]
}

// ---- random texts

// A number of a column: signed or not, of so many bits, mostly small, now and then at an edge of its width.
fn unsigned(r: &mut Random, most: u64) -> String {
    match r.below(8) {
        0 => most.to_string(),
        1 => (most / 2).to_string(),
        2 => (most - r.below(2)).to_string(),
        _ => r.below(12.min(most)).to_string(),
    }
}

fn signed(r: &mut Random, bits: u32) -> String {
    let half = 1i128 << (bits - 1);
    match r.below(8) {
        0 => (half - 1).to_string(),
        1 => (-half).to_string(),
        2 => (r.next() as i64 >> (64 - bits)).to_string(),
        _ => (r.below(12) as i64 - 3).to_string(),
    }
}

fn list(r: &mut Random, most: u64, item: impl Fn(&mut Random) -> String) -> String {
    (0..r.below(most + 1)).map(|_| item(r)).collect::<Vec<_>>().join(",")
}

const ID: u64 = u32::MAX as u64;

fn ids(r: &mut Random) -> String {
    list(r, 4, |r| unsigned(r, ID))
}

fn attribute(r: &mut Random) -> String {
    let name = if r.once_in(8) { "nameless" } else { r.one_of(&NAMES) };
    let or_absent = |r: &mut Random| if r.once_in(3) { String::new() } else { signed(r, 64) };
    let (form, numbers) = match r.below(9) {
        0 => ("i", signed(r, 64)),
        1 => ("b", r.below(2).to_string()),
        2 => ("a", list(r, 4, |r| signed(r, 64))),
        3 => ("z", list(r, 4, |r| r.below(2).to_string())),
        4 => ("p", list(r, 4, |r| signed(r, 32))),
        5 => ("d", format!("{},{},{}", unsigned(r, u64::MAX), or_absent(r), or_absent(r))),
        6 => ("s", list(r, 4, |r| signed(r, 64))),
        7 => ("r", format!("{},{}", or_absent(r), or_absent(r))),
        _ => ("x", String::new()),
    };
    format!("A\t{name}\t{form}\t{numbers}\n")
}

fn type_line(r: &mut Random) -> String {
    let form = r.below(7);
    let most = if r.once_in(10) { 10 } else { 8 };
    let dims = list(r, most, |r| signed(r, if form < 4 { 64 } else { 32 }));
    format!("T\t{form}\t{}\t{}\t{}\t{}\t{dims}\n", r.below(16), unsigned(r, ID), r.below(2), signed(r, 32))
}

fn value_line(r: &mut Random) -> String {
    let owner = if r.once_in(2) { "\t".to_string() } else { format!("{}\t{}", unsigned(r, ID), signed(r, 64)) };
    format!("V\t{}\t{owner}\n", unsigned(r, ID))
}

// The lines of a text in the house form; its ids are whatever they are, since the reader does not range them.
pub fn good_module(r: &mut Random) -> String {
    let mut out = format!("tile\t1\t{}\t{}\n", signed(r, 64), signed(r, 64));
    if r.once_in(2) {
        out = HEAD.into();
    }
    let some = |r: &mut Random| {
        let most = if r.once_in(400) { 60 } else { 4 };
        0..r.below(most)
    };
    some(r).for_each(|_| out += &type_line(r));
    some(r).for_each(|_| out += &value_line(r));
    for _ in some(r) {
        out += &format!("O\t{}\t{}\t{}\t{}\n", r.below(105), ids(r), ids(r), ids(r));
        (0..r.below(3)).for_each(|_| out += &attribute(r));
    }
    some(r).for_each(|_| out += &format!("B\t{}\t{}\n", ids(r), ids(r)));
    some(r).for_each(|_| out += &format!("R\t{}\n", ids(r)));
    some(r).for_each(|_| out += &format!("F\t{}\n", unsigned(r, ID)));
    out
}

pub fn good_sheet(r: &mut Random) -> String {
    let mut out = "sheet\t1\n".to_string();
    let often = 1 + r.below(12);
    let keys = |r: &mut Random, n: u64| (0..n).filter(|_| r.once_in(often * n / 8 + 1)).collect::<Vec<u64>>();
    keys(r, 105).iter().for_each(|k| out += &format!("c\t{k}\t{}\n", signed(r, 64)));
    keys(r, 16).iter().for_each(|k| out += &format!("m\t{k}\t{}\n", unsigned(r, 65_535)));
    keys(r, 16).iter().for_each(|k| out += &format!("p\t{k}\t{}\n", unsigned(r, 65_535)));
    keys(r, 16).iter().for_each(|k| out += &format!("w\t{k}\t{}\n", signed(r, 64)));
    (0..r.below(2)).for_each(|_| out += &format!("t\t{}\n", r.below(2)));
    out
}

const ODD: [&str; 32] = [
    "", "0", "1", "2", "00", "01", "-0", "-1", "+1", " 1", "1 ", "1\r", "-", ",", "1,", ",1", "1,,2", "x", "7", "16", "105", "65535", "65536",
    "2147483647", "2147483648", "-2147483649", "4294967295", "4294967296", "9223372036854775808", "-9223372036854775809",
    "18446744073709551615", "18446744073709551616",
];
const ODD_BYTES: [u8; 19] = *b"\t\t\n\n,,-0129 \r\0\xff+TAx";

fn change_bytes(r: &mut Random, text: &mut Vec<u8>) {
    let at = r.below(text.len() as u64 + 1) as usize;
    let byte = if r.once_in(6) { r.next() as u8 } else { r.one_of(&ODD_BYTES) };
    match r.below(4) {
        0 => text.insert(at, byte),
        1 if at < text.len() => text[at] = byte,
        2 if at < text.len() => drop(text.remove(at)),
        3 if r.once_in(3) => text.truncate(at),
        _ => text.insert(at, byte),
    }
}

fn change_fields(r: &mut Random, line: &mut Vec<u8>) {
    let mut fields: Vec<Vec<u8>> = line.split(|b| *b == b'\t').map(<[u8]>::to_vec).collect();
    let at = r.below(fields.len() as u64) as usize;
    match r.below(8) {
        0 => drop(fields.remove(at)),
        1 => fields.insert(at, r.one_of(&ODD).into()),
        2 => {
            let mut items: Vec<&[u8]> = fields[at].split(|b| *b == b',').collect();
            let k = r.below(items.len() as u64) as usize;
            items[k] = r.one_of(&ODD).as_bytes();
            fields[at] = items.join(&b',');
        }
        _ => fields[at] = r.one_of(&ODD).into(),
    }
    *line = fields.join(&b'\t');
}

fn change_lines(r: &mut Random, lines: &mut Vec<Vec<u8>>) {
    let (at, to) = (r.below(lines.len() as u64) as usize, r.below(lines.len() as u64) as usize);
    match r.below(5) {
        0 => drop(lines.remove(at)),
        1 => lines.insert(to, lines[at].clone()),
        2 => lines.swap(at, to),
        3 => lines.insert(to, r.one_of(&LINES).trim_end_matches('\n').into()),
        _ => lines.insert(to, r.one_of(&ODD).into()),
    }
}

// A line many times over, near the size of its table.
fn repeated(r: &mut Random) -> Vec<u8> {
    let table = r.below(7) as usize;
    let n = (SIZES[table] + r.below(3)) as usize - 1;
    let mut text = format!("{}{}", before(table), LINES[table].repeat(n));
    (0..r.below(3)).for_each(|_| text += r.one_of(&LINES));
    text.into_bytes()
}

// A text in the house form with some edits: none, one, two or three.
pub fn edited(r: &mut Random, is_sheet: bool) -> Vec<u8> {
    let mut text = if is_sheet {
        good_sheet(r).into_bytes()
    } else if r.once_in(1000) {
        repeated(r)
    } else {
        good_module(r).into_bytes()
    };
    for _ in 0..r.below(4) {
        if r.once_in(2) {
            change_bytes(r, &mut text);
            continue;
        }
        let mut lines: Vec<Vec<u8>> = text.split(|b| *b == b'\n').map(<[u8]>::to_vec).collect();
        let at = r.below(lines.len() as u64) as usize;
        match r.below(3) {
            0 => change_lines(r, &mut lines),
            _ => change_fields(r, &mut lines[at]),
        }
        text = lines.join(&b'\n');
    }
    text
}

// Bytes of all kinds, or of those that texts are made of, with or without a header.
pub fn random_bytes(r: &mut Random, is_sheet: bool) -> Vec<u8> {
    let mut text: Vec<u8> = match (r.below(4), is_sheet) {
        (0, _) => vec![],
        (_, true) => b"sheet\t1\n".to_vec(),
        _ => HEAD.into(),
    };
    let of: &[u8] = if is_sheet { b"cmpwt\t\t\n0123" } else { b"TVOABRF\t\t\t\n,-0123" };
    let any = r.once_in(3);
    (0..r.below(40)).for_each(|_| text.push(if any { r.next() as u8 } else { r.one_of(of) }));
    if r.once_in(2) {
        text.push(b'\n');
    }
    text
}
