//! The paper's refusals: a case for each code, with what its id and detail say.
use std::fmt;

/// Why a module, a sheet, tables or a number list were refused.
#[derive(Clone, Copy, Debug, PartialEq, Eq, Hash)]
pub enum Refusal {
    /// 1: a size exceeded, an id out of range. Tables are numbered from 1 (T, V, O, A, B, R, F, the sheet); 0 is a text past its size.
    OutOfRange { table: u64, entry: u64 },
    /// 2: listed twice, or a function inside a block; the list is 0 for operations, 1 for blocks, 2 for regions.
    ListedTwice { id: u64, list: u64 },
    /// 3: this operation opens block depth 33.
    TooDeep { operation: u64 },
    /// 4: a value with two defining places.
    DefinedTwice { value: u64 },
    /// 5: an operand is not visible.
    NotVisible { operation: u64, operand: u64 },
    /// 6: the result count differs from the sheet's.
    ResultCount { operation: u64, count: u64 },
    /// 7: a declared result has no value.
    NoValue { operation: u64, result: u64 },
    /// 8: an operand has no number yet.
    NoNumber { operation: u64, operand: u64 },
    /// 9: the version is too low for a feature.
    VersionLow { operation: u64, feature: u64 },
    /// 10: the architecture does not meet a feature.
    ArchitectureNot { operation: u64, feature: u64 },
    /// 11: an operation rule is broken.
    RuleBroken { operation: u64, reason: u64 },
    /// 12: a shape product leaves i64.
    ProductLeaves { operation: u64 },
    /// 13: a lent buffer is too short.
    TooShort { needed: u64 },
    /// 14: a number list cannot be read: 0 and 0 for its length, else the operation and the operand plus 1.
    NotReadable { operation: u64, place: u64 },
    /// 15: a text is not in the house form; the sheet's fields are told by 100 more by [`crate::check_texts`].
    NotInForm { line: u64, field: u64 },
    /// 16: no such version or sm number.
    NoTarget,
}

use Refusal::*;

impl Refusal {
    /// The three numbers of an answer, read back; `None` for 0 0 0, which is accepted, and for numbers that are no answer.
    pub fn of(numbers: [u64; 3]) -> Option<Refusal> {
        let [code, id, detail] = numbers;
        let refusal = match code {
            1 => OutOfRange { table: id, entry: detail },
            2 => ListedTwice { id, list: detail },
            3 => TooDeep { operation: id },
            4 => DefinedTwice { value: id },
            5 => NotVisible { operation: id, operand: detail },
            6 => ResultCount { operation: id, count: detail },
            7 => NoValue { operation: id, result: detail },
            8 => NoNumber { operation: id, operand: detail },
            9 => VersionLow { operation: id, feature: detail },
            10 => ArchitectureNot { operation: id, feature: detail },
            11 => RuleBroken { operation: id, reason: detail },
            12 => ProductLeaves { operation: id },
            13 => TooShort { needed: detail },
            14 => NotReadable { operation: id, place: detail },
            15 => NotInForm { line: id, field: detail },
            16 => NoTarget,
            _ => return None,
        };
        (refusal.numbers() == numbers).then_some(refusal)
    }

    /// Code, id and detail, as the paper has them.
    pub fn numbers(self) -> [u64; 3] {
        match self {
            OutOfRange { table, entry } => [1, table, entry],
            ListedTwice { id, list } => [2, id, list],
            TooDeep { operation } => [3, operation, 0],
            DefinedTwice { value } => [4, value, 0],
            NotVisible { operation, operand } => [5, operation, operand],
            ResultCount { operation, count } => [6, operation, count],
            NoValue { operation, result } => [7, operation, result],
            NoNumber { operation, operand } => [8, operation, operand],
            VersionLow { operation, feature } => [9, operation, feature],
            ArchitectureNot { operation, feature } => [10, operation, feature],
            RuleBroken { operation, reason } => [11, operation, reason],
            ProductLeaves { operation } => [12, operation, 0],
            TooShort { needed } => [13, 0, needed],
            NotReadable { operation, place } => [14, operation, place],
            NotInForm { line, field } => [15, line, field],
            NoTarget => [16, 0, 0],
        }
    }

    pub fn code(self) -> u64 {
        self.numbers()[0]
    }

    pub fn id(self) -> u64 {
        self.numbers()[1]
    }

    pub fn detail(self) -> u64 {
        self.numbers()[2]
    }

    /// The paper's line: `no`, code, id and detail, parted by tabs.
    pub fn line(self) -> String {
        let [code, id, detail] = self.numbers();
        format!("no\t{code}\t{id}\t{detail}")
    }
}

impl fmt::Display for Refusal {
    fn fmt(&self, f: &mut fmt::Formatter<'_>) -> fmt::Result {
        let [code, ..] = self.numbers();
        write!(f, "code {code}: ")?;
        match *self {
            OutOfRange { table: 0, .. } => write!(f, "the text is over its size"),
            OutOfRange { table: 8, .. } => write!(f, "the sheet is out of range"),
            OutOfRange { table, entry } => write!(f, "entry {entry} of table {table} is out of range, or one too many"),
            ListedTwice { id, list } => {
                let kind = ["operation", "block", "region"].get(list as usize).copied().unwrap_or("entry");
                write!(f, "{kind} {id} is listed twice")
            }
            TooDeep { operation } => write!(f, "operation {operation} opens block depth 33"),
            DefinedTwice { value } => write!(f, "value {value} has two defining places"),
            NotVisible { operation, operand } => write!(f, "operand {operand} of operation {operation} is not visible"),
            ResultCount { operation, count } => write!(f, "operation {operation} has {count} results, and the sheet says another number"),
            NoValue { operation, result } => write!(f, "result {result} of operation {operation} has no value"),
            NoNumber { operation, operand } => write!(f, "operand {operand} of operation {operation} has no number yet"),
            VersionLow { operation, feature } => write!(f, "operation {operation} asks a later version for feature {feature}"),
            ArchitectureNot { operation, feature } => write!(f, "operation {operation} asks another architecture for feature {feature}"),
            RuleBroken { operation, reason } => write!(f, "operation {operation} breaks its rule, reason {reason}"),
            ProductLeaves { operation } => write!(f, "a shape product of operation {operation} leaves 64 bits"),
            TooShort { needed } => write!(f, "a lent buffer is too short: {needed} entries are needed"),
            NotReadable { operation: 0, place: 0 } => write!(f, "the number list has the wrong length"),
            NotReadable { operation, place } => {
                write!(f, "the number of operand {} of operation {operation} names nothing live", place.saturating_sub(1))
            }
            NotInForm { line, field } => write!(f, "line {line} is not in the house form, at field {field}"),
            NoTarget => write!(f, "no such version or sm number"),
        }
    }
}

impl std::error::Error for Refusal {}
