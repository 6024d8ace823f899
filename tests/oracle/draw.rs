// Random modules: nested operations whose operands are visible and whose types fit, with operations near the limits of the rules among
// them; then one fault of some code, or a near miss of it; then all ids permuted; then, now and then, the text damaged.
use crate::faults;
use crate::model::{Model, Row};
use crate::shared::large::nested_module;
use crate::shared::rules::{spoil as spoil_op, *};
use crate::shared::sheet::{self, Sheet};
use crate::shared::tables::*;

// Which lent slice is too short, if one is.
#[derive(Clone, Copy, PartialEq, Debug)]
pub enum Short {
    None,
    Numbers,
    Lengths,
    Sheet,
    Table(usize),
}

#[derive(Clone)]
pub struct Case {
    pub sheet: Vec<u8>,
    pub text: Vec<u8>,
    pub model: Option<Model>, // what the text was written from, where it was not damaged
    pub short: Short,
}

// How a module is nested: how often a block begins and ends, and whether every operation opens one.
struct Shape {
    operations: usize,
    function_in: u64,
    block_in: u64,
    end_in: u64,
}

struct Open {
    block: usize,
    live: Vec<u64>,
}

struct Maker<'a> {
    r: &'a mut Random,
    m: Model,
    open: Vec<Open>,
}

impl Maker<'_> {
    fn typed(&mut self, t: &Ty) -> u64 {
        let mut t = t.clone();
        // The Rust has one pointer attribute, so there is mostly one here.
        t.pointer = [0, 7, 8][t.pointer as usize];
        let known = self.m.types.iter().position(|u| *u == t);
        known.unwrap_or_else(|| {
            self.m.types.push(t);
            self.m.types.len() - 1
        }) as u64
    }
    fn value(&mut self, ty: u64, claim: Option<(u64, u64)>) -> u64 {
        self.m.values.push((ty, claim));
        self.m.values.len() as u64 - 1
    }
    // A live value of a type, else a new argument of a block around.
    fn visible(&mut self, ty: u64) -> u64 {
        let live: Vec<u64> = self.open.iter().flat_map(|o| &o.live).copied().filter(|v| self.m.values[*v as usize].0 == ty).collect();
        if !live.is_empty() && !self.r.once_in(3) {
            return self.r.one_of(&live);
        }
        let v = self.value(ty, None);
        if !self.open.is_empty() {
            let at = self.r.below(self.open.len() as u64) as usize;
            self.open[at].live.push(v);
            let block = self.open[at].block;
            self.m.blocks[block].0.push(v);
        }
        v
    }
    // An operation's row; its results are live from now on in the block that is open.
    fn place(&mut self, op: &Op) -> u64 {
        let i = self.m.operations.len() as u64;
        let operands: Vec<u64> = op.operands.iter().map(|t| self.typed(t)).collect();
        let operands = operands.into_iter().map(|t| self.visible(t)).collect();
        let results: Vec<u64> = op.results.iter().map(|t| self.typed(t)).collect();
        for (k, t) in results.iter().enumerate() {
            let v = self.value(*t, Some((i, k as u64)));
            self.open.last_mut().into_iter().for_each(|o| o.live.push(v));
        }
        self.m.operations.push(Row { opcode: op.opcode, results, operands, regions: vec![], attributes: op.attributes.clone() });
        i
    }
    // A new block in an operation, in a region of its own or in its last one.
    fn open_block(&mut self, above: u64) {
        let (block, row) = (self.m.blocks.len(), above as usize);
        if self.m.operations[row].regions.is_empty() || self.r.once_in(2) {
            // now and then a region without blocks stands before it, seldom before a function's entry
            for _ in 0..1 + self.r.once_in(if self.open.is_empty() { 100 } else { 20 }) as usize {
                self.m.operations[row].regions.push(self.m.regions.len() as u64);
                self.m.regions.push(vec![]);
            }
        }
        let region = *self.m.operations[row].regions.last().unwrap() as usize;
        self.m.regions[region].push(block as u64);
        self.m.blocks.push((vec![], vec![]));
        self.open.push(Open { block, live: vec![] });
    }
    fn module(&mut self, ops: &[Op], shape: &Shape) {
        for (k, op) in ops.iter().enumerate() {
            if k == 0 || self.r.once_in(shape.function_in) && self.m.functions.len() < 64 {
                self.open.clear();
                let f = self.place(op);
                self.m.functions.push(f);
                continue;
            }
            while self.open.len() > 1 && self.r.once_in(shape.end_in) {
                self.open.pop();
            }
            let last = self.open.last().and_then(|o| self.m.blocks[o.block].1.last().copied());
            let room = self.m.blocks.len() < 500 && self.m.regions.len() < 500;
            if self.open.is_empty() || last.is_some() && room && self.r.once_in(shape.block_in) {
                self.open_block(last.unwrap_or(*self.m.functions.last().unwrap()));
            }
            let i = self.place(op);
            let block = self.open.last().unwrap().block;
            self.m.blocks[block].1.push(i);
        }
        // an empty block and an operation that nothing lists
        if self.r.once_in(8) && !self.m.regions.is_empty() {
            let k = self.r.below(self.m.regions.len() as u64) as usize;
            self.m.regions[k].push(self.m.blocks.len() as u64);
            self.m.blocks.push((vec![], vec![]));
        }
        if self.r.once_in(8) {
            self.open.clear();
            let op = quiet(self.r);
            self.place(&op);
        }
    }
}

// ---- operations

// An operation without a rule, of kinds that every target takes; types of every form.
fn quiet(r: &mut Random) -> Op {
    let ruled = |code: u32| ARMS[..14].iter().any(|(_, opcodes)| opcodes.contains(&code));
    let opcode = std::iter::from_fn(|| Some(r.below(93) as u32)).find(|code| !ruled(*code)).unwrap();
    let some = |r: &mut Random| {
        let rank = r.one_of(&[0, 1, 1, 2, 8]);
        let dims: Vec<i64> = (0..rank).map(|_| r.one_of(&[1, 2, 4])).collect();
        let mut t = ty(if r.once_in(6) { r.below(7) } else { TILE }, r.one_of(&[0, 2, 3, 4, 4, 5, 6, 7, 8, 8, 9, 10]), &dims);
        t.sparse = if r.once_in(2) { -1 } else { r.below(2) as i64 };
        t.padded = r.once_in(4) as u64;
        t.pointer = r.once_in(30) as u64;
        t
    };
    let operands = (0..r.one_of(&[0, 1, 1, 2, 2, 3])).map(|_| some(r)).collect();
    let results = (0..r.one_of(&[0, 1, 1, 1, 2])).map(|_| some(r)).collect();
    Op { opcode, operands, results, attributes: vec![] }
}

// Any name with any form; the names that a feature is asked by, mostly in their own form.
fn extra(r: &mut Random) -> Attribute {
    if r.once_in(2) {
        return match r.below(5) {
            0 => attribute(1, 0, &[r.one_of(&[5, 7])], 0),
            1 => attribute(2, 1, &[r.below(2) as i64], 0),
            2 => attribute(3, 3, &[0, r.below(2) as i64], 0),
            3 => attribute(4, 1, &[r.below(2) as i64], 0),
            _ => attribute(5, r.one_of(&[8, 2]), &[], 0),
        };
    }
    let name = r.below(14) as u32;
    let n = r.below(9) as i64;
    let (a, b) = (r.below(2) as i64, r.below(2) as i64);
    match r.below(9) as u32 {
        0 => attribute(name, 0, &[n], 0),
        1 => attribute(name, 1, &[a], 0),
        3 => attribute(name, 3, &[a, b], 0),
        form @ (2 | 4 | 6) => attribute(name, form, &[n, -n], 0),
        5 => attribute(name, 5, &[8, a, b], r.one_of(&[0, 2, 4, 6])),
        7 => attribute(name, 7, &[-n, n], r.below(4) as u32),
        _ => attribute(name, 8, &[], 0),
    }
}

// The opcodes some of whose reasons come seldom.
const SELDOM: [u32; 20] = [96, 96, 96, 99, 99, 99, 99, 44, 44, 84, 84, 31, 31, 23, 88, 28, 58, 7, 7, 93];

// An operation near the limits of its rule.
fn ruled(r: &mut Random) -> Op {
    let flushed = attribute(13, 1, &[1], 0);
    if !r.once_in(3) {
        let mut op = near_op(r);
        op.attributes.extend(r.once_in(6).then_some(flushed));
        return op;
    }
    let mut op = near(r.one_of(&SELDOM), r);
    match r.below(5) {
        0 | 1 => op.attributes.push(flushed),
        2 if !op.operands.is_empty() => {
            let k = r.below(op.operands.len() as u64) as usize;
            op.operands[k].dims = r.one_of(&[vec![], vec![1], vec![4]]);
        }
        3 => spoil_op(&mut op, r),
        _ => {}
    }
    op
}

// So many operations, some of them near the limits of the rules; the first is mostly an Entry without anything.
fn operations(r: &mut Random, many: usize) -> Vec<Op> {
    let near = match r.below(10) {
        _ if many < 2 => 0,
        0 => 0,
        1..=6 => 1,
        7 | 8 => 2,
        _ => many.min(6),
    };
    let mut ops: Vec<Op> = (0..many).map(|_| quiet(r)).collect();
    if !r.once_in(12) && many > 0 {
        ops[0] = Op { opcode: 22, ..Op::default() };
    }
    for _ in 0..near {
        let at = if r.once_in(20) { 0 } else { 1 + r.below(many as u64 - 1) as usize };
        ops[at] = ruled(r);
    }
    let each = if many < 20 { 16 } else { many as u64 * 2 };
    ops.iter_mut().filter(|_| r.once_in(each)).collect::<Vec<_>>().into_iter().for_each(|op| op.attributes.push(extra(r)));
    ops
}

// Every operation inside the one before it.
fn chain(operations: usize) -> Shape {
    Shape { operations, function_in: u64::MAX, block_in: 1, end_in: u64::MAX }
}

fn shape(r: &mut Random) -> Shape {
    let usual = |operations: u64| Shape {
        operations: operations as usize,
        function_in: (operations / 20).max(12),
        block_in: (operations / 100).max(4),
        end_in: 3,
    };
    match r.below(300) {
        0 => usual(500 + r.below(1548)),
        1..=32 => chain(4 + r.below(33) as usize),
        33..=56 => usual(13 + r.below(60)),
        57..=64 => usual(r.below(2)),
        _ => usual(2 + r.below(10)),
    }
}

fn model(r: &mut Random) -> Model {
    if r.once_in(1000) {
        let (operations, depth) = r.one_of(&[(2048, 32), (2048, 32), (2047, 31), (1200, 32)]);
        return Model::of(&nested_module(operations, depth, r), 4, 120);
    }
    let shape = shape(r);
    let ops = operations(r, shape.operations);
    made(&ops, &shape, r)
}

fn made(ops: &[Op], shape: &Shape, r: &mut Random) -> Model {
    let mut maker = Maker { r, m: Model::default(), open: vec![] };
    maker.module(ops, shape);
    maker.m
}

// The smallest inputs of docs/DIFFERENCES.md: operations, a target and a sheet on which the Rust's own walk says otherwise.
fn difference(r: &mut Random) -> (Model, Sheet) {
    let mut s = sheet::of_the_crate();
    let op = |opcode: u32, operands: &[Ty], results: &[Ty]| Op { opcode, operands: operands.to_vec(), results: results.to_vec(), attributes: vec![] };
    let entry = op(22, &[], &[]);
    let pointing = |mut t: Ty, pointer: u64| {
        t.pointer = pointer;
        t
    };
    let small = |k: u64| tile(k, &[4]);
    let (mut last, target) = match r.below(8) {
        0 => {
            let (a, b, c) = (tile(14, &[4, 16]), tile(14, &[16, 4]), tile(8, &[4, 4]));
            (op(96, &[a, b, c.clone(), tile(15, &[4, 1]), tile(15, &[1, 4])], &[c]), (4, 110))
        }
        1 => (op(8, &[ty(POINTER, 7, &[4]), small(7)], &[small(7), token()]), r.one_of(&[(2, 100), (3, 80)])),
        2 => (op(49, &[pointing(ty(POINTER, 8, &[]), 1)], &[pointing(ty(TENSOR, 8, &[4]), 2)]), (4, 120)),
        3 => (op(6, &[small(2)], &[small(2)]), (4, 120)),
        4 => (op(3, &[ty(r.one_of(&[5, 6]), 8, &[4])], &[]), (2, 100)),
        5 => (op(3, &[tile(8, &[3])], &[]), (4, 100)),
        6 => (op(3, &[pointing(small(8), 1)], &[]), (3, 100)),
        _ => (op(74, &[], &[]), (3, 100)),
    };
    match last.opcode {
        8 => last.attributes = vec![attribute(7, 0, &[4], 0), attribute(8, 0, &[1], 0), attribute(9, 0, &[0], 0)],
        6 => {
            last.attributes = vec![attribute(0, 7, &[0, 1], 0)];
            sheet::set_width(&mut s, 2, 0);
        }
        3 => last.operands[0].sparse = 0,
        _ => {}
    }
    let around = if last.opcode == 74 { op(r.one_of(&[29, 47]), &[], &[]) } else { entry.clone() };
    let mut m = made(&[entry, around, last], &chain(3), r);
    (m.version, m.sm) = target;
    (m, s)
}

// Mostly a target that takes every kind.
fn chosen_target(r: &mut Random) -> (u64, u64) {
    if r.once_in(3) { target(r) } else { (4, r.one_of(&[107, 110, 120, 121])) }
}

// The crate's rules, mostly, with counts that mostly are those of some operation.
fn chosen_sheet(m: &Model, r: &mut Random) -> Sheet {
    let mut s = if r.once_in(8) { sheet::another(r) } else { sheet::of_the_crate() };
    if r.once_in(100) {
        sheet::set_width(&mut s, 2 + r.below(4) as usize, 0);
    }
    if r.once_in(3) {
        for _ in 0..r.below(4) {
            let Some(row) = m.operations.get(r.below(m.operations.len() as u64) as usize) else { continue };
            let other = m.operations.iter().any(|o| o.opcode == row.opcode && o.results.len() != row.results.len());
            if !other || r.once_in(4) {
                sheet::fix(&mut s, row.opcode as usize, row.results.len() as u64 + r.once_in(12) as u64);
            }
        }
    }
    s
}

fn usual(r: &mut Random) -> (Model, Sheet) {
    let mut m = model(r);
    (m.version, m.sm) = chosen_target(r);
    let mut s = chosen_sheet(&m, r);
    if r.once_in(3) {
        faults::spoil(&mut m, &mut s, r);
    }
    (m, s)
}

pub fn draw(r: &mut Random) -> Case {
    let (mut m, s) = if r.once_in(100) { difference(r) } else { usual(r) };
    m.permute(r);
    let mut case = Case { sheet: sheet::text(&s).into(), text: m.text().into(), model: Some(m), short: Short::None };
    match r.below(40) {
        0..=2 => {
            damage_text(&mut case.text, r);
            case.model = None;
        }
        3 => damage_text(&mut case.sheet, r),
        4 => {
            let table = Short::Table(r.below(8) as usize);
            case.short = r.one_of(&[Short::Lengths, Short::Sheet, table, table]);
        }
        5 => case.short = Short::Numbers,
        _ => {}
    }
    case
}

// A byte put in, taken out or changed, a line doubled or dropped, two lines changed about, or the end cut off.
fn damage_text(text: &mut Vec<u8>, r: &mut Random) {
    let at = r.below(text.len() as u64) as usize;
    let byte = r.one_of(b"\t\n,-0123456789 \r\0\xffxA");
    match r.below(8) {
        0 => drop(text.remove(at)),
        1 => text.insert(at, byte),
        2 | 3 => text[at] = byte,
        4 => drop(text.pop()),
        5 => text.truncate(at),
        6 => {
            let ends: Vec<usize> = text.iter().enumerate().filter(|(_, b)| **b == b'\n').map(|(k, _)| k + 1).collect();
            let k = r.below(ends.len() as u64) as usize;
            let line = text[if k == 0 { 0 } else { ends[k - 1] }..ends[k]].to_vec();
            text.splice(ends[k]..ends[k], line);
        }
        _ => {
            let mut lines: Vec<Vec<u8>> = text.split_inclusive(|b| *b == b'\n').map(Vec::from).collect();
            let (a, b) = (r.below(lines.len() as u64) as usize, r.below(lines.len() as u64) as usize);
            lines.swap(a, b);
            *text = lines.concat();
        }
    }
}
