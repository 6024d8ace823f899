// Operations near the limits of the operation rules: for each opcode of the fourteen arms, operands, results and attributes that mostly fit
// together, with kinds, modes, roundings and extents at both sides of each limit, and spoilt now and then in one place or two.
use super::tables::*;

#[derive(Clone, PartialEq, Eq, Hash, Debug)]
pub struct Ty {
    pub form: u64,
    pub kind: u64,
    pub pointer: u64,
    pub padded: u64,
    pub sparse: i64,
    pub dims: Vec<i64>,
}

#[derive(Clone, Debug)]
pub struct Attribute {
    pub name: u32,
    pub form: u32,
    pub numbers: Vec<u64>,
    pub absent: u32,
}

#[derive(Clone, Default, Debug)]
pub struct Op {
    pub opcode: u32,
    pub operands: Vec<Ty>,
    pub results: Vec<Ty>,
    pub attributes: Vec<Attribute>,
}

pub const ARMS: [(&str, &[u32]); 15] = [
    ("shape", &[9, 73, 11, 65, 93, 94]),
    ("atomic", &[8, 7]),
    ("assume", &[6]),
    ("make view", &[49, 48, 97, 98]),
    ("alloca", &[95]),
    ("fpowi", &[103]),
    ("mma", &[55, 56, 96]),
    ("insert, extract", &[100, 26]),
    ("ftoi", &[31]),
    ("ftof", &[30]),
    ("rounded", &[2, 85, 58, 28]),
    ("exp, tanh", &[23, 88]),
    ("token", &[101, 102, 104]),
    ("view", &[44, 84, 99]),
    ("no rule", &[3, 22, 29, 38, 74]),
];

// How many `fail`s each arm has, in the order of ARMS.
pub const REASONS: [u64; 15] = [3, 8, 8, 1, 4, 4, 12, 5, 1, 6, 1, 2, 1, 13, 0];
pub const FLUSHED: u64 = 99;
// Code 12 among the reasons.
pub const LEAVES: u64 = 112;

// Reasons that an opcode cannot give, though its arm can: docs/DIFFERENCES.md has the argument for each.
pub fn possible(opcode: u32, reason: u64) -> bool {
    !matches!(
        (opcode, reason),
        (7, 6) | (8, 5) | (55, 8..=12) | (56, 7..=12) | (96, 7) | (26, 3) | (44 | 84, 5 | 6) | (99, 10)
    )
}

// The reasons of an opcode's arm, with code 12 in the shape arm and the closing rule.
pub fn reasons_of(arm: usize) -> Vec<u64> {
    (1..=REASONS[arm]).chain((arm == 0).then_some(LEAVES)).chain([FLUSHED]).collect()
}

pub const TOKEN: u64 = 0;
pub const TILE: u64 = 1;
pub const POINTER: u64 = 2;
pub const TENSOR: u64 = 3;
const GATHER: u64 = 6;
const I1: u64 = 0;
const I32: u64 = 4;
const F32: u64 = 8;
const ROUNDING: u32 = 1;
const PERMUTATION: u32 = 6;
const MODE: u32 = 7;
const ORDERING: u32 = 8;
const SCOPE: u32 = 9;
const NUM_ELEM: u32 = 10;
const ALIGNMENT: u32 = 11;
const SEGMENTS: u32 = 12;
const FLUSH: u32 = 13;
// The bits of each kind in the crate.
const BITS: [i64; 16] = [1, 4, 8, 16, 32, 64, 16, 16, 32, 32, 64, 8, 8, 8, 4, 8];

pub fn ty(form: u64, kind: u64, dims: &[i64]) -> Ty {
    Ty { form, kind, pointer: 0, padded: 0, sparse: -1, dims: dims.to_vec() }
}
pub fn tile(kind: u64, dims: &[i64]) -> Ty {
    ty(TILE, kind, dims)
}
pub fn token() -> Ty {
    ty(TOKEN, 0, &[])
}
pub fn attribute(name: u32, form: u32, numbers: &[i64], absent: u32) -> Attribute {
    Attribute { name, form, numbers: numbers.iter().map(|n| *n as u64).collect(), absent }
}
fn integer(name: u32, n: i64) -> Attribute {
    attribute(name, 0, &[n], 0)
}
fn dims(r: &mut Random, rank: u64) -> Vec<i64> {
    (0..rank).map(|_| r.one_of(&[1, 2, 3, 4, 8, 16])).collect()
}
pub fn some_dims(r: &mut Random) -> Vec<i64> {
    let rank = r.below(4);
    dims(r, rank)
}
// From low to high, both ends in.
fn between(r: &mut Random, low: i64, high: i64) -> i64 {
    low + r.below((high - low + 1) as u64) as i64
}
// Mostly one of these, else any kind.
pub fn kind(r: &mut Random, mostly: &[u64]) -> u64 {
    if r.once_in(4) { r.below(16) } else { r.one_of(mostly) }
}
const KINDS: [u64; 16] = [0, 1, 2, 3, 4, 5, 6, 7, 8, 9, 10, 11, 12, 13, 14, 15];
const INTEGERS: [u64; 6] = [0, 1, 2, 3, 4, 5];

// Dims whose products stand at the edge of i64, from the left.
fn edge_dims(r: &mut Random) -> Vec<i64> {
    let two = |k: u32| 1i64 << k;
    let wide: [&[i64]; 14] = [
        &[two(32), two(31)], &[two(32), two(31) - 1], &[two(31), two(31)], &[two(62), 2], &[-two(62), 2], &[-two(62), -2], &[two(62), 4, 0],
        &[0, two(62), 4], &[i64::MAX], &[i64::MIN], &[i64::MIN, -1], &[i64::MAX, 1, 1], &[two(62), 1, 2], &[3037000500, 3037000500],
    ];
    r.one_of(&wide).to_vec()
}

// ---- one operation of each arm

// Opcodes by how many reasons they have, FToF by its pairs of kinds; now and then one that has no rule.
fn weighted(r: &mut Random) -> u32 {
    let weight = |code: u32, reasons: u64| if code == 30 { 30 } else { reasons + 2 };
    let arms = ARMS.iter().zip(REASONS);
    let weights = arms.flat_map(|((_, opcodes), reasons)| opcodes.iter().map(move |code| (*code, weight(*code, reasons))));
    let mut k = r.below(weights.clone().map(|w| w.1).sum());
    for (code, weight) in weights {
        if k < weight {
            return code;
        }
        k -= weight;
    }
    unreachable!()
}

pub fn near_op(r: &mut Random) -> Op {
    let code = weighted(r);
    let mut op = near(code, r);
    for _ in 0..r.one_of(&[0, 0, 0, 1, 1, 2]) {
        spoil(&mut op, r);
    }
    op
}

pub fn near(opcode: u32, r: &mut Random) -> Op {
    let mut op = Op { opcode, ..Op::default() };
    match opcode {
        9 | 73 | 11 | 65 | 93 | 94 => shape(&mut op, r),
        7 | 8 => atomic(&mut op, r),
        6 => assume(&mut op, r),
        48 | 49 | 97 | 98 => make_view(&mut op, r),
        95 => alloca(&mut op, r),
        103 => fpowi(&mut op, r),
        55 | 56 | 96 => mma(&mut op, r),
        26 | 100 => insert(&mut op, r),
        31 => rounded(&mut op, r, 5, 7, &KINDS),
        30 => {
            let floats = &KINDS[6..];
            rounded(&mut op, r, -1, 8, floats);
            op.results[0].kind = kind(r, floats);
            // the two pairs that have a rule of their own, F64 to F32 and F32 to TF32, and one into F8E8M0FNU
            if r.once_in(4) {
                (op.operands[0].kind, op.results[0].kind) = r.one_of(&[(10, F32), (F32, 9), (F32, 13)]);
            }
        }
        2 | 85 | 58 | 28 => rounded(&mut op, r, -1, 4, &KINDS[6..]),
        23 | 88 => rounded(&mut op, r, 3, 6, &[F32, F32, 6, 10]),
        101 | 102 | 104 => {
            op.results = vec![token()];
            let n = if opcode == 104 { 1 } else { r.below(2) };
            op.operands = (0..n).map(|_| token()).collect();
        }
        44 | 84 | 99 => view(&mut op, r),
        _ => plain(&mut op, r),
    }
    if r.once_in(8) {
        let n = 1 + r.below(2);
        (0..n).for_each(|_| flush(&mut op, r));
    }
    op
}

fn flush(op: &mut Op, r: &mut Random) {
    let a = match r.below(5) {
        0 | 1 => attribute(FLUSH, 1, &[0], 0),
        2 => attribute(FLUSH, 1, &[1], 0),
        3 => integer(FLUSH, 0),
        _ => attribute(FLUSH, 8, &[], 0),
    };
    let at = r.below(op.attributes.len() as u64 + 1) as usize;
    op.attributes.insert(at, a);
}

fn plain(op: &mut Op, r: &mut Random) {
    let n = r.below(3);
    let d = some_dims(r);
    op.operands = (0..n).map(|_| tile(kind(r, &[F32]), &d)).collect();
    op.results = (0..r.below(2)).map(|_| tile(kind(r, &[F32]), &d)).collect();
}

fn rounded(op: &mut Op, r: &mut Random, low: i64, high: i64, kinds: &[u64]) {
    let d = some_dims(r);
    op.operands = vec![tile(kind(r, kinds), &d)];
    op.results = vec![op.operands[0].clone()];
    if !r.once_in(6) {
        op.attributes.push(integer(ROUNDING, between(r, low, high)));
    }
}

fn shape(op: &mut Op, r: &mut Random) {
    let k = r.below(16);
    let rank = if op.opcode == 65 { 1 + r.below(4) } else { r.below(4) };
    let mut from = if r.once_in(8) { edge_dims(r) } else { dims(r, rank) };
    let (mut to, mut kind_to) = (from.clone(), k);
    match op.opcode {
        9 => {
            let as_wide: Vec<u64> = KINDS.into_iter().filter(|j| BITS[*j as usize] == BITS[k as usize]).collect();
            kind_to = kind(r, &as_wide);
        }
        73 => match r.below(3) {
            0 => to.reverse(),
            1 => to.push(1),
            _ => to = vec![from.iter().fold(1i64, |n, d| n.wrapping_mul(*d))],
        },
        11 => from.iter_mut().for_each(|d| if r.once_in(2) { *d = 1 }),
        65 => {
            let p = r.permutation(from.len() as u64);
            to = p.iter().map(|i| from[*i as usize]).collect();
            op.attributes.push(attribute(PERMUTATION, 4, &p.iter().map(|i| *i as i64).collect::<Vec<_>>(), 0));
        }
        _ => {
            // Counts that weigh the same, and near the edge of i64 once bits are counted.
            kind_to = r.below(16);
            let (a, b) = (BITS[k as usize], BITS[kind_to as usize]);
            let n = r.one_of(&[0, 1, 2, 4, 8, 64, -8, i64::MAX / a.max(b) / a.min(b), i64::MAX / a.min(b)]);
            let shift = if r.once_in(4) { between(r, -1, 1) } else { 0 };
            (from, to) = (vec![(n * b / a.min(b)).wrapping_add(shift)], vec![n * a / a.min(b)]);
        }
    }
    let form = if r.once_in(8) { POINTER } else { TILE };
    op.operands = vec![ty(form, k, &from)];
    op.results = vec![ty(form, kind_to, &to)];
}

// A mode and a kind that mostly fit by the crate's sheet.
fn mode_and_kind(r: &mut Random) -> (i64, u64) {
    let mode = between(r, -1, 10);
    let k = match mode {
        4 => kind(r, &[6, 7, 8, 10]),
        9 => kind(r, &[4, 5, 8, 9, 10]),
        _ => kind(r, &[4, 5]),
    };
    (mode, k)
}

fn atomic(op: &mut Op, r: &mut Random) {
    let (mode, k) = mode_and_kind(r);
    let d = some_dims(r);
    let value = tile(k, &d);
    op.operands = vec![ty(POINTER, k, &d), value.clone()];
    op.results = vec![value.clone()];
    if op.opcode == 7 {
        op.operands.push(value);
    } else {
        op.attributes.push(integer(MODE, mode));
    }
    if !r.once_in(12) {
        op.attributes.push(integer(ORDERING, if r.once_in(3) { between(r, 0, 5) } else { between(r, 1, 4) }));
    }
    if !r.once_in(12) {
        op.attributes.push(integer(SCOPE, if r.once_in(3) { between(r, -1, 3) } else { between(r, 0, 2) }));
    }
    for _ in 0..r.below(3) {
        op.operands.push(if r.once_in(3) { token() } else { tile(if r.once_in(6) { r.below(3) } else { I1 }, &d) });
    }
    op.results.push(token());
}

fn assume(op: &mut Op, r: &mut Random) {
    let d = some_dims(r);
    let k = kind(r, &INTEGERS);
    let form = if r.once_in(3) { r.one_of(&[POINTER, TENSOR]) } else { TILE };
    op.operands = vec![ty(form, k, &d)];
    op.results = vec![ty(form, k, &d)];
    for _ in 0..1 + r.below(3) {
        let name = r.below(3) as u32;
        let a = match r.below(7) {
            0 | 1 => {
                let divisor = r.one_of(&[0, 1, 2, 3, 8, 1 << 61, (1 << 62) - 1, 1 << 62, (1 << 62) + 1, i64::MIN, -1]);
                let along = between(r, -1, d.len() as i64);
                let every = d.get(along as usize).map_or(1, |n| r.one_of(&[-1, 0, 1, n - 1, *n, n + 1]));
                let absent = if r.once_in(6) { 2 * r.below(4) as u32 } else { r.one_of(&[0, 6]) };
                attribute(name, 5, &[if r.once_in(3) { divisor } else { 8 }, every, along], absent)
            }
            2 | 3 => {
                let size = |n: &i64| if r.once_in(4) { r.one_of(&[-1, n + 1]) } else { r.one_of(&[0, 1, n - 1, *n]) };
                let mut sizes: Vec<i64> = d.iter().map(size).collect();
                if r.once_in(6) {
                    sizes.push(0);
                }
                attribute(name, 6, &sizes, 0)
            }
            4 | 5 => {
                let high = i64::MAX >> (64 - BITS[k as usize]);
                let end = |r: &mut Random| {
                    let near = r.one_of(&[!high, -1, 0, 1, high]);
                    if r.once_in(3) { near.wrapping_add(between(r, -1, 1)) } else { near }
                };
                let (a, b) = (end(r), end(r));
                let ends = if r.once_in(6) { [a, b] } else { [a.min(b), a.max(b)] };
                attribute(name, 7, &ends, if r.once_in(3) { r.below(4) as u32 } else { 0 })
            }
            _ => integer(name, 3),
        };
        op.attributes.push(a);
    }
}

fn make_view(op: &mut Op, r: &mut Random) {
    let from = match op.opcode {
        49 => POINTER,
        _ => TENSOR,
    };
    let d = dims(r, 2);
    op.operands = vec![ty(from, F32, &d)];
    op.results = vec![ty(match op.opcode { 49 => TENSOR, 48 => 4, 98 => 5, _ => GATHER }, F32, &d)];
    let pointer = r.below(2);
    op.operands[0].pointer = pointer;
    op.results[0].pointer = if r.once_in(3) { r.below(2) } else { pointer };
}

fn alloca(op: &mut Op, r: &mut Random) {
    let k = r.below(16);
    op.results = vec![ty(POINTER, k, &[])];
    if !r.once_in(8) {
        op.attributes.push(integer(NUM_ELEM, r.one_of(&[i64::MIN, -1, 0, 1, 64, i64::MAX])));
    }
    if !r.once_in(8) {
        let natural = (BITS[k as usize] / 8).max(1);
        let other = [0, -1, -8, 1, 2, 3, 12, 64, 1 << 62, i64::MIN, i64::MAX];
        let near = [natural, natural, natural * 2, natural / 2, natural + 1];
        op.attributes.push(integer(ALIGNMENT, if r.once_in(2) { r.one_of(&other) } else { r.one_of(&near) }));
    }
}

fn fpowi(op: &mut Op, r: &mut Random) {
    let d = some_dims(r);
    let base = tile(kind(r, &[6, 7, 8, 10]), &d);
    op.operands = vec![base.clone(), tile(kind(r, &[0, 2, 3, 4]), &d)];
    op.results = vec![base];
}

fn mma(op: &mut Op, r: &mut Random) {
    let rank = if r.once_in(8) { r.one_of(&[1, 4]) } else { 2 + r.below(2) } as usize;
    let batch = vec![r.one_of(&[1, 2, 4]); rank.saturating_sub(2)];
    let with = |m: i64, n: i64| [&batch[..], &[m, n]].concat();
    let (m, n) = (r.one_of(&[1, 4, 16]), r.one_of(&[1, 8, 16]));
    // Scales: how many, and how long a vector each of them serves.
    let scales = r.one_of(&[1, 1, 1, 2, 2, 4, 0, -1]);
    let vector = if r.once_in(6) { r.one_of(&[1, 8, 15, 17, 31, 33, 64]) } else { r.one_of(&[16, 32]) };
    let k = if op.opcode == 96 { scales * vector + if r.once_in(6) { between(r, -1, 1) } else { 0 } } else { r.one_of(&[1, 8, 16]) };
    let input = match op.opcode {
        55 => kind(r, &[14, 11, 12, 6, 7, 9, 8, 10]),
        96 => kind(r, &[14, 14, 11, 12]),
        _ => kind(r, &[2]),
    };
    let sum = kind(r, match op.opcode { 55 => &[8, 8, 6, 10], 56 => &[4], _ => &[8] });
    op.operands = vec![tile(input, &with(m, k)), tile(input, &with(k, n)), tile(sum, &with(m, n))];
    op.results = vec![tile(sum, &with(m, n))];
    if op.opcode == 96 {
        let scale = kind(r, &[11, 13, 15]);
        op.operands.push(tile(scale, &with(m, scales)));
        op.operands.push(tile(scale, &with(scales, n)));
    }
    if rank == 1 {
        op.operands.iter_mut().chain(&mut op.results).for_each(|t| t.dims.truncate(1));
    }
}

fn insert(op: &mut Op, r: &mut Random) {
    let small = some_dims(r);
    let large: Vec<i64> = small.iter().map(|s| s * r.one_of(&[0, 1, 2, 3, -1])).collect();
    let k = r.below(16);
    let (small, large) = (tile(k, &small), tile(k, &large));
    let indices = (0..small.dims.len()).map(|_| tile(I32, &[]));
    if op.opcode == 100 {
        op.operands = [small, large.clone()].into_iter().chain(indices).collect();
        op.results = vec![large];
    } else {
        op.operands = [large].into_iter().chain(indices).collect();
        op.results = vec![small];
    }
}

fn view(op: &mut Op, r: &mut Random) {
    let atomic = op.opcode == 99;
    let rank = r.one_of(&[0, 1, 2, 2, 3]);
    let d = dims(r, rank);
    let (mode, k) = if atomic { mode_and_kind(r) } else { (0, kind(r, &[4, 8])) };
    let form = if atomic { if r.once_in(8) { GATHER } else { 4 + r.below(2) } } else { 4 + r.below(3) };
    let mut seen = ty(form, k, &d);
    seen.padded = if atomic { r.once_in(8) as u64 } else { r.below(2) };
    seen.sparse = if r.once_in(3) { between(r, -1, rank as i64) } else { r.below(rank.max(1)) as i64 };
    let index = r.one_of(&[4, 4, 5, 3, 1]);
    let mut indices: Vec<Ty> = (0..d.len())
        .map(|axis| tile(index, if form == GATHER && seen.sparse == axis as i64 { &d[axis..axis + 1] } else { &[] }))
        .collect();
    if rank > 1 && r.once_in(8) {
        indices[r.below(rank) as usize].kind = 2;
    }
    if rank > 0 && r.once_in(16) {
        indices[r.below(rank) as usize] = token();
    }
    let value = tile(k, &d);
    let count = rank as i64;
    let (first, segments) = match op.opcode {
        44 => (vec![seen], vec![1, count, 0]),
        84 => (vec![value.clone(), seen], vec![1, 1, count, 0]),
        _ => (vec![seen], vec![1, count, 1]),
    };
    op.operands = first.into_iter().chain(indices).collect();
    if atomic {
        op.operands.push(value);
        op.attributes.push(integer(MODE, mode));
    } else if op.opcode == 44 {
        op.results = vec![value];
    }
    op.results.push(token());
    op.attributes.push(attribute(SEGMENTS, 2, &segments, 0));
    let order = if r.once_in(4) { between(r, -1, 5) } else { match op.opcode { 44 => between(r, 0, 2), 84 => r.one_of(&[0, 1, 3]), _ => 1 } };
    if order != 0 || r.once_in(2) {
        op.attributes.push(integer(ORDERING, order));
    }
    if order != 0 && !r.once_in(8) || r.once_in(8) {
        op.attributes.push(integer(SCOPE, if r.once_in(4) { between(r, -1, 3) } else { between(r, 0, 1) }));
    }
}

// ---- spoiling

// One place of an operation changed: a type, an operand, a result or an attribute.
pub fn spoil(op: &mut Op, r: &mut Random) {
    let types = op.operands.len() + op.results.len();
    match r.below(10) {
        0 if r.once_in(4) => op.operands.clear(),
        0 => drop(op.operands.pop()),
        1 if !op.operands.is_empty() => drop(op.operands.remove(r.below(op.operands.len() as u64) as usize)),
        2 => {
            let extra = if r.once_in(2) { tile(r.below(16), &some_dims(r)) } else { token() };
            op.operands.insert(r.below(op.operands.len() as u64 + 1) as usize, extra);
        }
        3 => {
            if r.once_in(3) {
                op.results.insert(0, token());
            } else {
                op.results.truncate(r.below(op.results.len() as u64 + 1) as usize);
            }
        }
        4 | 5 if !op.attributes.is_empty() => spoil_attribute(op, r),
        _ if types > 0 => {
            let k = r.below(types as u64) as usize;
            let t = if k < op.operands.len() { &mut op.operands[k] } else { &mut op.results[k - op.operands.len()] };
            spoil_type(t, r);
        }
        _ => {}
    }
}

fn spoil_type(t: &mut Ty, r: &mut Random) {
    match r.below(9) {
        0 => t.form = r.below(7),
        1 => t.form = TILE + POINTER - t.form.clamp(TILE, POINTER),
        2 => t.kind = r.below(16),
        3 => t.pointer ^= 1,
        4 => t.dims.push(r.one_of(&[1, 4])),
        5 => drop(t.dims.pop()),
        6 => t.dims.reverse(),
        7 if t.form < 4 && r.once_in(2) => t.dims = edge_dims(r),
        _ => {
            if !t.dims.is_empty() {
                let k = r.below(t.dims.len() as u64) as usize;
                t.dims[k] = r.one_of(&[t.dims[k] + 1, t.dims[k] - 1, t.dims[k] * 2, 0, 1, -t.dims[k]]);
            }
        }
    }
    t.dims.truncate(8);
    if t.form >= 4 {
        t.dims.iter_mut().for_each(|d| *d = *d as i32 as i64);
    }
}

// An attribute dropped, renamed, told twice, in another form before its own, or with a number one off.
fn spoil_attribute(op: &mut Op, r: &mut Random) {
    let k = r.below(op.attributes.len() as u64) as usize;
    let mut a = op.attributes[k].clone();
    match r.below(6) {
        0 => drop(op.attributes.remove(k)),
        1 => op.attributes[k].name = 0,
        2 => {
            let (form, numbers): (u32, &[i64]) = r.one_of(&[(1, &[1]), (2, &[1, 0, 1]), (3, &[1, 0, 1]), (8, &[])]);
            op.attributes.insert(k, attribute(a.name, form, numbers, 0));
        }
        _ => {
            if let Some(n) = a.numbers.len().checked_sub(1) {
                let at = r.below(n as u64 + 1) as usize;
                let one = a.numbers[at];
                a.numbers[at] = r.one_of(&[one.wrapping_add(1), one.wrapping_sub(1), 0]);
                if matches!(a.form, 1 | 3) {
                    a.numbers[at] &= 1;
                } else if a.form == 4 {
                    a.numbers[at] = a.numbers[at] as i32 as i64 as u64;
                }
            }
            if r.once_in(3) {
                op.attributes.insert(k, a);
            } else {
                op.attributes[k] = a;
            }
        }
    }
}

// ---- a module of operations

// Operations in walk order, nested at random, one function or more; all ids permuted. Operations past `walked` are never reached.
pub fn module_of(ops: &[Op], walked: usize, r: &mut Random) -> Tables {
    let n = ops.len();
    let (mut blocks, mut regions): (Vec<Vec<usize>>, Vec<Vec<usize>>) = (vec![], vec![]);
    let mut inside: Vec<Vec<usize>> = vec![vec![]; n];
    let mut functions = vec![];
    let mut open: Vec<usize> = vec![];
    // how often a function and a block begin: no oftener than the tables take
    let (function_in, block_in) = ((walked as u64 / 20).max(12), (walked as u64 / 100).max(4));
    for i in 0..walked {
        if i == 0 || r.once_in(function_in) {
            functions.push(i);
            open.clear();
        } else {
            while open.len() > 1 && r.once_in(3) {
                open.pop();
            }
            let above = open.last().map_or(*functions.last().unwrap(), |b| *blocks[*b].last().unwrap());
            if open.is_empty() || open.len() < 30 && r.once_in(block_in) {
                // a new block in the last operation, in a region of its own or in its last
                if inside[above].is_empty() || r.once_in(2) {
                    inside[above].push(regions.len());
                    regions.push(vec![]);
                }
                regions[*inside[above].last().unwrap()].push(blocks.len());
                open.push(blocks.len());
                blocks.push(vec![]);
            }
            blocks[*open.last().unwrap()].push(i);
        }
    }
    laid_out(ops, &functions, &inside, &regions, &blocks, r)
}

fn laid_out(ops: &[Op], functions: &[usize], inside: &[Vec<usize>], regions: &[Vec<usize>], blocks: &[Vec<usize>], r: &mut Random) -> Tables {
    let mut types: Vec<Ty> = ops.iter().flat_map(|op| op.operands.iter().chain(&op.results)).cloned().collect();
    types.sort_by_key(|t| format!("{t:?}"));
    types.dedup();
    let pt = r.permutation(types.len() as u64);
    let number = |t: &Ty| pt[types.iter().position(|u| u == t).unwrap()];
    let (po, pb, pr) = (r.permutation(ops.len() as u64), r.permutation(blocks.len() as u64), r.permutation(regions.len() as u64));
    let mut x = Tables::default();
    for old in inverse(&pt) {
        let t = &types[old as usize];
        x.typed(t.form, t.kind, &t.dims.iter().map(|d| *d as u64).collect::<Vec<_>>());
        let at = x.t.len() - 16;
        // The Rust has one pointer attribute, so there is one here.
        x.t[at + 2..at + 5].copy_from_slice(&[t.pointer * 7, t.padded, t.sparse as u64]);
    }
    // A value for each operand, some of them shared; a block's argument, nobody's, or the claim of a result that is not declared.
    let mut values: Vec<(u64, u64)> = vec![];
    let mut operands: Vec<Vec<u64>> = vec![];
    for op in ops {
        operands.push(op.operands.iter().map(|t| {
            let t = number(t);
            let old = values.iter().position(|v| v.0 == t).filter(|_| r.once_in(2));
            old.unwrap_or_else(|| {
                values.push((t, r.below(3)));
                values.len() - 1
            }) as u64
        }).collect());
    }
    let pv = r.permutation(values.len() as u64);
    let mut arguments: Vec<Vec<u64>> = vec![vec![]; blocks.len()];
    for old in inverse(&pv) {
        let (t, owner) = values[old as usize];
        match owner {
            0 if !blocks.is_empty() => arguments[r.below(blocks.len() as u64) as usize].push(x.n[VALUES]),
            1 => {
                x.value(t, Some((r.below(ops.len() as u64), 100 + old)));
                continue;
            }
            _ => {}
        }
        x.value(t, None);
    }
    let mut spans = vec![(0, 0); ops.len()];
    for i in r.permutation(ops.len() as u64) {
        let attributes = &ops[i as usize].attributes;
        spans[i as usize] = (x.n[ATTRIBUTES] as u32, attributes.len() as u32);
        attributes.iter().for_each(|a| x.attribute(a.name, a.form, &a.numbers, a.absent));
    }
    let ids = |p: &[u64], old: &[usize]| old.iter().map(|k| p[*k]).collect::<Vec<u64>>();
    for old in inverse(&po) {
        let i = old as usize;
        let results: Vec<u64> = ops[i].results.iter().map(number).collect();
        let used: Vec<u64> = operands[i].iter().map(|v| pv[*v as usize]).collect();
        x.operation(ops[i].opcode, &results, &used, &ids(&pr, &inside[i]), spans[i]);
    }
    for old in inverse(&pb) {
        x.block(&arguments[old as usize], &ids(&po, &blocks[old as usize]));
    }
    inverse(&pr).into_iter().for_each(|old| x.region(&ids(&pb, &regions[old as usize])));
    functions.iter().for_each(|i| x.function(po[*i] as u32));
    x
}
