// The rule sheet as a table of 320 cells, and its text.
use super::tables::Random;

pub type Sheet = Vec<u64>;

// Where the parts stand: two cells an opcode from 0, then modes, contained kinds and widths, 16 cells each, and the tile flag.
const MODES: usize = 256;
const CONTAINED: usize = 272;
const WIDTHS: usize = 288;
const THROUGH: usize = 304;

pub fn empty() -> Sheet {
    vec![0; 320]
}

// "Widths are 0 to 8 bytes and counts 0 to 8,192": what is left to ask of a sheet that was read.
pub fn in_range(sheet: &[u64]) -> bool {
    (0..105).all(|k| sheet[k * 2 + 1] <= 8192) && sheet[WIDTHS..WIDTHS + 16].iter().all(|w| *w <= 8)
}

// Whether modes, contained kinds, widths and the tile flag are those of the crate.
pub fn has_the_crates_rules(sheet: &[u64]) -> bool {
    sheet[MODES..=THROUGH] == of_the_crate()[MODES..=THROUGH]
}

pub fn width(sheet: &[u64], kind: usize) -> u64 {
    sheet[WIDTHS + kind]
}

pub fn set_width(sheet: &mut Sheet, kind: usize, bytes: u64) {
    sheet[WIDTHS + kind] = bytes;
}

pub fn fix(sheet: &mut Sheet, opcode: usize, count: u64) {
    sheet[opcode * 2] = 1;
    sheet[opcode * 2 + 1] = count;
}

// The crate's own answers, as its running functions give them (crate.sheet beside the runnable Rust).
pub fn of_the_crate() -> Sheet {
    let mut s = empty();
    s[MODES..MODES + 10].copy_from_slice(&[48, 48, 48, 48, 1472, 48, 48, 48, 48, 1840]);
    s[CONTAINED + 6..CONTAINED + 16].copy_from_slice(&[22592, 55424, 56256, 56000, 65472, 18432, 20480, 8192, 16384, 55296]);
    s[WIDTHS..WIDTHS + 16].copy_from_slice(&[1, 1, 1, 2, 4, 8, 2, 2, 4, 4, 8, 1, 1, 1, 1, 1]);
    s[THROUGH] = 1;
    s
}

// Another sheet: the crate's with some answers changed. The Rust cannot take integers of 0 bits, so those keep a width.
pub fn another(r: &mut Random) -> Sheet {
    let mut s = of_the_crate();
    for _ in 0..r.below(12) {
        let k = r.below(16) as usize;
        match r.below(3) {
            0 => s[MODES + k] = r.below(1 << 16),
            1 => s[CONTAINED + 6 + k % 10] = r.below(1 << 16),
            _ => s[WIDTHS + k] = if (2..6).contains(&k) { 1 + r.below(8) } else { r.below(9) },
        }
    }
    s[THROUGH] = r.below(2);
    s
}

// The lines, keys rising; what is not told is none, 0 or absent.
pub fn text(s: &Sheet) -> String {
    let counts = (0..105).filter(|k| s[k * 2] == 1).map(|k| format!("c\t{k}\t{}\n", s[k * 2 + 1]));
    let rows = |tag: &'static str, at: usize| {
        (0..16).filter(move |k| s[at + k] != 0).map(move |k| format!("{tag}\t{k}\t{}\n", s[at + k]))
    };
    let parts = counts.chain(rows("m", MODES)).chain(rows("p", CONTAINED)).chain(rows("w", WIDTHS));
    format!("sheet\t1\n{}t\t{}\n", parts.collect::<String>(), s[THROUGH])
}
