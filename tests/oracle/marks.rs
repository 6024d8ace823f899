// What the Rust is not asked to agree on, by the tags of docs/DIFFERENCES.md: each is read off the module alone.
use crate::plain::Asked;
use crate::shared::sheet;
use crate::shared::tables::*;

pub type Mark = &'static str;

// Tags, and the parts that are then not compared.
pub const MARKS: [(Mark, &[&str]); 9] = [
    ("new-scale-mma", &["cap"]),
    ("pointer-attribute", &["cap"]),
    ("bf16-atomic-add", &["cap"]),
    ("loop-return", &["cap"]),
    ("view-types", &["cap"]),
    ("verify-type", &["cap"]),
    ("zero-bits", &["ops"]),
    ("two-pointer-attributes", &["cap", "ops"]),
    ("result-index", &["dom", "num", "req", "ops", "cap"]),
];

pub fn silenced(marks: &[Mark], part: &str) -> bool {
    MARKS.iter().any(|(mark, parts)| marks.contains(mark) && parts.contains(&part))
}

struct Seen<'a> {
    x: &'a Tables,
    marks: Vec<Mark>,
}

const TILE: u64 = 1;

impl Seen<'_> {
    fn ty(&self, t: u64) -> &[u64] {
        &self.x.t[t as usize * 16..t as usize * 16 + 16]
    }
    // A tile of a kind, without a pointer attribute.
    fn plain_tile(&self, t: u64, kind: u64) -> bool {
        self.ty(t)[..3] == [TILE, kind, 0]
    }
    fn mark(&mut self, holds: bool, mark: Mark) {
        if holds && !self.marks.contains(&mark) {
            self.marks.push(mark);
        }
    }
    fn types(&mut self, types: &[u64]) {
        for t in types {
            let c = self.ty(*t).to_vec();
            self.mark(c[0] != 0 && c[2] != 0, "pointer-attribute");
            self.mark(matches!(c[0], 5 | 6), "view-types");
            self.mark(!verified(&c), "verify-type");
        }
    }
    fn operation(&mut self, i: u64, in_loop: bool) {
        let opcode = self.x.o[i as usize * 16];
        let operands: Vec<u64> = self.x.operands_of(OPERATIONS, i, 3).into_iter().map(|v| self.x.v[v as usize * 4]).collect();
        let results = self.x.operands_of(OPERATIONS, i, 1);
        self.types(&operands);
        self.types(&results);
        let new_scale = operands.iter().skip(3).any(|t| self.plain_tile(*t, 15));
        self.mark(opcode == 96 && new_scale, "new-scale-mma");
        let halves = operands.iter().any(|t| self.plain_tile(*t, 7));
        self.mark(matches!(opcode, 8 | 99) && halves && self.mode(i) == Some(4), "bf16-atomic-add");
        self.mark(opcode == 74 && in_loop, "loop-return");
        for k in self.x.operands_of(OPERATIONS, i, 5) {
            for j in self.x.operands_of(REGIONS, k, 0) {
                let inside = self.x.operands_of(BLOCKS, j, 2);
                inside.into_iter().for_each(|i| self.operation(i, in_loop || matches!(opcode, 29 | 47)));
            }
        }
    }
    // The first integer attribute `mode`.
    fn mode(&self, i: u64) -> Option<u64> {
        let o = &self.x.o[i as usize * 16..];
        let found = (o[7]..o[7] + o[8]).map(|k| &self.x.a[k as usize * 8..]).find(|a| a[0] == 7 && a[1] == 0);
        found.map(|a| self.x.l[a[2] as usize])
    }
}

// Whether the Rust's own test of every type passes: extents, the count of elements, axes.
fn verified(c: &[u64]) -> bool {
    let dims: Vec<i64> = c[8..8 + c[5] as usize].iter().map(|d| *d as i64).collect();
    let extents = || {
        let powers = dims.iter().all(|d| *d > 0 && d.count_ones() == 1);
        let count = dims.iter().try_fold(1i64, |n, d| n.checked_mul(*d)).filter(|n| *n <= 1 << 24);
        powers && count.is_some_and(|n| c[0] == 2 || c[1] != 14 || n % 2 == 0)
    };
    match c[0] {
        0 => true,
        1 | 2 => extents(),
        3 => dims.iter().all(|d| *d > 0 || *d == i64::MIN),
        4 | 5 => !dims.is_empty() && extents(),
        _ => (0..dims.len() as i64).contains(&(c[4] as i64)) && extents(),
    }
}

pub fn marks(q: &Asked) -> Vec<Mark> {
    if !q.for_the_rust() {
        return vec![];
    }
    let mut seen = Seen { x: &q.x, marks: vec![] };
    q.x.functions().into_iter().for_each(|f| seen.operation(f, false));
    let assumes = q.x.walk_order().iter().any(|i| q.x.o[*i as usize * 16] == 6);
    seen.mark(assumes && (2..6).any(|k| sheet::width(&q.sheet, k) == 0), "zero-bits");
    let attributes: Vec<u64> = q.x.t.chunks(16).filter(|c| c[0] != 0 && c[2] != 0).map(|c| c[2]).collect();
    seen.mark(attributes.iter().any(|p| *p != attributes[0]), "two-pointer-attributes");
    seen.mark(q.x.v.chunks(4).any(|c| c[1] == 1 && c[3] > u32::MAX as u64), "result-index");
    seen.marks
}
