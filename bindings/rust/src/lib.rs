//! The bench for modules of GPU tile kernels. A module is accepted with the number of each operand, or refused with code, id and detail.
//! The checks are the proved functions of the bench's archive; this crate lends them owned memory and gives their answers as Rust values.
//!
//! ```
//! let text = b"tile\t1\t4\t100\n";
//! assert_eq!(lavrindes::check_texts(b"sheet\t1\n", text), Ok(lavrindes::Numbering { lists: vec![] }));
//! ```
#![deny(unsafe_code)]

#[allow(unsafe_code)]
mod ffi;
mod refusal;

pub use refusal::Refusal;
use std::fmt;

/// Entries of the slices that hold any table, in the order T, V, O, A, B, R, F and the list entries.
const FULL: [usize; 8] = [16_384, 16_384, 32_768, 32_768, 2_048, 1_024, 64, 8_192];
const SHEET: usize = 320;
const NUMBERS: usize = 8_192;
const FUNCTIONS: usize = 64;
/// No function has so many operands: what is left of it in a list of lengths was not written.
const UNWRITTEN: u64 = u64::MAX;

/// A module as tables, row after row; include/lavrindes.h says what each cell is. Any entries are allowed: bad ones are refused.
#[derive(Clone, Debug, Default, PartialEq, Eq)]
pub struct Tables {
    pub t: Vec<u64>,
    pub v: Vec<u64>,
    pub o: Vec<u32>,
    pub a: Vec<u32>,
    pub b: Vec<u32>,
    pub r: Vec<u32>,
    pub f: Vec<u32>,
    pub l: Vec<u64>,
    /// How many rows count, of T, V, O, A, B, R and F.
    pub counts: [u64; 7],
}

impl Tables {
    /// Tables at their full sizes, of which nothing counts.
    pub fn full() -> Tables {
        let [t, v, o, a, b, r, f, l] = FULL;
        Tables {
            t: vec![0; t],
            v: vec![0; v],
            o: vec![0; o],
            a: vec![0; a],
            b: vec![0; b],
            r: vec![0; r],
            f: vec![0; f],
            l: vec![0; l],
            counts: [0; 7],
        }
    }
}

/// The target of a module: the minor version (4 is 13.4) and the chip's number.
#[derive(Clone, Copy, Debug, PartialEq, Eq)]
pub struct Target {
    pub version: u64,
    pub sm: u64,
}

/// What a module's text says: the target of its header, and its tables.
#[derive(Clone, Debug, PartialEq, Eq)]
pub struct Module {
    pub target: Target,
    pub tables: Tables,
}

/// A rule sheet; include/lavrindes.h says what each of its 320 entries is.
#[derive(Clone, Debug, PartialEq, Eq)]
pub struct Sheet {
    pub entries: Vec<u64>,
}

impl Default for Sheet {
    /// The sheet that says nothing, as the text `sheet`, 1.
    fn default() -> Sheet {
        Sheet { entries: vec![0; SHEET] }
    }
}

/// The operand numbers of an accepted module: a list for each function, in walk order.
#[derive(Clone, Debug, PartialEq, Eq)]
pub struct Numbering {
    pub lists: Vec<Vec<u64>>,
}

impl Numbering {
    /// All the numbers, function after function, as [`read_back`] takes them.
    pub fn whole(&self) -> Vec<u64> {
        self.lists.concat()
    }

    fn of(numbers: &[u64], lengths: &[u64]) -> Numbering {
        let mut rest = numbers;
        let mut lists = Vec::new();
        for length in lengths {
            let (list, after) = rest.split_at(*length as usize);
            lists.push(list.to_vec());
            rest = after;
        }
        Numbering { lists }
    }
}

impl fmt::Display for Numbering {
    /// The paper's output: `ok`, then one `n` line a function.
    fn fmt(&self, f: &mut fmt::Formatter<'_>) -> fmt::Result {
        write!(f, "ok")?;
        for (position, list) in self.lists.iter().enumerate() {
            let numbers: Vec<String> = list.iter().map(u64::to_string).collect();
            write!(f, "\nn\t{position}\t{}", numbers.join(","))?;
        }
        Ok(())
    }
}

/// Where a value is defined.
#[derive(Clone, Copy, Debug, PartialEq, Eq, Hash)]
pub enum Place {
    Argument { block: u64, position: u64 },
    Result { operation: u64, index: u64 },
}

// 0 0 0 is accepted; the contracts leave no other answer than the sixteen codes.
fn verdict(answer: [u64; 3]) -> Result<(), Refusal> {
    if answer == [0, 0, 0] {
        return Ok(());
    }
    Err(Refusal::of(answer).expect("an answer has one of the codes 1 to 16"))
}

// The lists that a numbering is written to; what a call leaves of them.
struct Lists {
    numbers: Vec<u64>,
    lengths: Vec<u64>,
}

impl Lists {
    fn new() -> Lists {
        Lists { numbers: vec![0; NUMBERS], lengths: vec![UNWRITTEN; FUNCTIONS] }
    }

    fn read(self, answer: [u64; 3]) -> Result<Numbering, Refusal> {
        verdict(answer)?;
        let functions = self.lengths.iter().take_while(|n| **n != UNWRITTEN).count();
        Ok(Numbering::of(&self.numbers, &self.lengths[..functions]))
    }
}

/// The whole check over two texts: the sheet's, the module's, then all of 16 and 1 to 12.
pub fn check_texts(sheet_text: &[u8], text: &[u8]) -> Result<Numbering, Refusal> {
    let Tables { mut t, mut v, mut o, mut a, mut b, mut r, mut f, mut l, .. } = Tables::full();
    let (mut sheet, mut lists, mut answer) = (vec![0; SHEET], Lists::new(), [0; 3]);
    ffi::check_texts(
        sheet_text, text, &mut t, &mut v, &mut o, &mut a, &mut b, &mut r, &mut f, &mut l, &mut sheet, &mut lists.numbers,
        &mut lists.lengths, &mut answer,
    );
    lists.read(answer)
}

/// The whole check over tables: 16, 1 to 4, dominance, numbering, requirements, rules.
pub fn check_all(target: Target, x: &Tables, sheet: &Sheet) -> Result<Numbering, Refusal> {
    let (mut lists, mut answer) = (Lists::new(), [0; 3]);
    ffi::check_all(
        target.version, target.sm, &x.t, &x.v, &x.o, &x.a, &x.b, &x.r, &x.f, &x.l, &x.counts, &sheet.entries, &mut lists.numbers,
        &mut lists.lengths, &mut answer,
    );
    lists.read(answer)
}

/// The table checks alone: 1 to 4.
pub fn check_tables(x: &Tables) -> Result<(), Refusal> {
    let mut answer = [0; 3];
    ffi::check_tables(&x.t, &x.v, &x.o, &x.a, &x.b, &x.r, &x.f, &x.l, &x.counts, &mut answer);
    verdict(answer)
}

/// Dominance alone: 1 to 4, then 5.
pub fn check_dominance(x: &Tables) -> Result<(), Refusal> {
    let mut answer = [0; 3];
    ffi::check_dominance(&x.t, &x.v, &x.o, &x.a, &x.b, &x.r, &x.f, &x.l, &x.counts, &mut answer);
    verdict(answer)
}

/// Numbering alone: 1 to 4, then 8, 6 and 7.
pub fn check_numbering(x: &Tables, sheet: &Sheet) -> Result<Numbering, Refusal> {
    let (mut lists, mut answer) = (Lists::new(), [0; 3]);
    ffi::check_numbering(
        &x.t, &x.v, &x.o, &x.a, &x.b, &x.r, &x.f, &x.l, &x.counts, &sheet.entries, &mut lists.numbers, &mut lists.lengths, &mut answer,
    );
    lists.read(answer)
}

/// Version and architecture alone: 16, 1 to 4, then 9 and 10.
pub fn check_requirements(target: Target, x: &Tables) -> Result<(), Refusal> {
    let mut answer = [0; 3];
    ffi::check_requirements(target.version, target.sm, &x.t, &x.v, &x.o, &x.a, &x.b, &x.r, &x.f, &x.l, &x.counts, &mut answer);
    verdict(answer)
}

/// The operation rules alone: 16, 1 to 4, then 11 and 12.
pub fn check_rules(target: Target, x: &Tables, sheet: &Sheet) -> Result<(), Refusal> {
    let mut answer = [0; 3];
    ffi::check_rules(
        target.version, target.sm, &x.t, &x.v, &x.o, &x.a, &x.b, &x.r, &x.f, &x.l, &x.counts, &sheet.entries, &mut answer,
    );
    verdict(answer)
}

/// Reads a number list back to defining places, by nesting and counts alone: 1 to 3 of the nesting, then 14.
pub fn read_back(x: &Tables, numbers: &[u64]) -> Result<Vec<Place>, Refusal> {
    // A list that is longer than any module's is refused before a place is written.
    let mut places = vec![0; 3 * numbers.len().min(NUMBERS)];
    let mut answer = [0; 3];
    ffi::read_back(&x.o, &x.b, &x.r, &x.f, &x.l, &x.counts, numbers, &mut places, &mut answer);
    verdict(answer)?;
    let place = |p: &[u64]| match p[0] {
        0 => Place::Argument { block: p[1], position: p[2] },
        _ => Place::Result { operation: p[1], index: p[2] },
    };
    Ok(places.chunks(3).map(place).collect())
}

/// Reads a module's text: its target and its tables.
pub fn read_module(text: &[u8]) -> Result<Module, Refusal> {
    let mut x = Tables::full();
    let (mut header, mut answer) = ([0; 2], [0; 3]);
    ffi::read_module(
        text, &mut x.t, &mut x.v, &mut x.o, &mut x.a, &mut x.b, &mut x.r, &mut x.f, &mut x.l, &mut header, &mut x.counts, &mut answer,
    );
    verdict(answer)?;
    let [version, sm] = header;
    Ok(Module { target: Target { version, sm }, tables: x })
}

/// Reads a rule sheet's text.
pub fn read_sheet(text: &[u8]) -> Result<Sheet, Refusal> {
    let mut sheet = Sheet::default();
    let mut answer = [0; 3];
    ffi::read_sheet(text, &mut sheet.entries, &mut answer);
    verdict(answer)?;
    Ok(sheet)
}
