// What the paper alone decides of a case: both texts read plainly, the target, the ranges, codes 2 to 4, and what room the numbers take.
use crate::draw::{Case, Short};
use crate::reader::{read_module, read_sheet, Module, MOST_ENTRIES, SHEET_CELLS};
use crate::shared::entry::entry_walks;
use crate::shared::sheet;
use crate::shared::tables::*;

// What the parts are asked of: the tables of the text, or of the module that a text too long was written from.
pub struct Asked {
    pub x: Tables,
    pub version: u64,
    pub sm: u64,
    pub sheet: Vec<u64>,
    pub checks: Answer,       // codes 1 to 4
    pub sheet_checks: Answer, // the same with the sheet among the ranges
    pub needed: u64,          // operands of the entry walks
}

pub struct Plain {
    pub read: Answer, // of both texts, a short lent slice before its lines
    pub asked: Option<Asked>,
}

pub fn full_size(table: usize) -> (u64, usize) {
    if table < 7 { (SIZES[table], WIDTHS[table]) } else { (MOST_ENTRIES as u64, 1) }
}

pub fn in_lists(version: u64, sm: u64) -> bool {
    (2..=4).contains(&version) && [80, 86, 87, 88, 89, 90, 100, 103, 107, 110, 120, 121].contains(&sm)
}

impl Asked {
    fn of(x: Tables, version: u64, sm: u64, sheet: Vec<u64>) -> Asked {
        let (checks, sheet_checks) = (x.judge(), x.judge_with(sheet::in_range(&sheet)));
        let mut needed = 0;
        if checks == ACCEPTED {
            entry_walks(&x, |_, _, _| needed += 1);
        }
        Asked { x, version, sm, sheet, checks, sheet_checks, needed }
    }
    pub fn good_target(&self) -> bool {
        in_lists(self.version, self.sm)
    }
    // The Rust has no table checks: it is asked of what passes.
    pub fn for_the_rust(&self) -> bool {
        self.sheet_checks == ACCEPTED
    }
    // Entries lent for numbers and lengths, and the answer where one of them is too few.
    pub fn room(&self, short: Short) -> (usize, usize, Option<Answer>) {
        let (numbers, lengths) = (self.needed, self.x.n[FUNCTIONS]);
        let roomy = |n: u64| n.min(8192) as usize + 3;
        match short {
            Short::Numbers if numbers > 0 => (numbers as usize - 1, roomy(lengths), Some([13, 0, numbers])),
            Short::Lengths if lengths > 0 => (roomy(numbers), lengths.min(8192) as usize - 1, Some([13, 0, lengths])),
            _ => (roomy(numbers), roomy(lengths), None),
        }
    }
}

impl Plain {
    pub fn of(case: &Case) -> Plain {
        let told = |why: Answer| Plain { read: why, asked: None };
        if case.short == Short::Sheet {
            return told([13, 0, SHEET_CELLS as u64]);
        }
        let sheet = match read_sheet(&case.sheet) {
            Ok(sheet) => sheet,
            Err([15, line, field]) => return told([15, line, field + 100]),
            Err(why) => return told(why),
        };
        let mut m = Module::default();
        let read = read_module(&case.text, &mut m);
        let asked = match (read, &case.model) {
            (Ok(()), _) => Some(Asked::of(m.tables, m.version, m.sm, sheet)),
            (Err([1, ..]), Some(model)) => Some(Asked::of(model.tables(), model.version, model.sm, sheet)),
            _ => None,
        };
        let short = if let Short::Table(k) = case.short { Some([13, 0, full_size(k).0]) } else { None };
        Plain { read: short.unwrap_or(read.err().unwrap_or(ACCEPTED)), asked }
    }
}
