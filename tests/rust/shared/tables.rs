// Tables for the tests: a plain reading of the paper's codes 1 to 4, which shares nothing with the crates; a builder; random modules whose
// ids do not rise with nesting; and a module's house text.
use std::collections::HashMap;

#[derive(Clone, Default)]
pub struct Tables {
    pub t: Vec<u64>,
    pub v: Vec<u64>,
    pub o: Vec<u32>,
    pub a: Vec<u32>,
    pub b: Vec<u32>,
    pub r: Vec<u32>,
    pub f: Vec<u32>,
    pub l: Vec<u64>,
    pub n: [u64; 7], // types, values, operations, attributes, blocks, regions, functions
}

pub const TYPES: usize = 0;
pub const VALUES: usize = 1;
pub const OPERATIONS: usize = 2;
pub const ATTRIBUTES: usize = 3;
pub const BLOCKS: usize = 4;
pub const REGIONS: usize = 5;
pub const FUNCTIONS: usize = 6;
pub const SIZES: [u64; 7] = [1024, 4096, 2048, 4096, 512, 512, 64];
pub const WIDTHS: [usize; 7] = [16, 4, 16, 8, 4, 2, 1];

pub type Answer = [u64; 3];
pub const ACCEPTED: Answer = [0, 0, 0];

// ---- the paper's codes, read plainly

pub fn signed32(x: u64) -> bool {
    let z = x as i64;
    i32::try_from(z).is_ok()
}

impl Tables {
    pub fn cells(&self, table: usize) -> usize {
        [self.t.len(), self.v.len(), self.o.len(), self.a.len(), self.b.len(), self.r.len(), self.f.len()][table]
    }
    // a list, if it stands within the list entries
    pub fn list(&self, start: u32, len: u32) -> Option<&[u64]> {
        self.l.get(start as usize..start as usize + len as usize)
    }
    pub fn span(cells: &[u32], at: usize) -> (u32, u32) {
        (cells[at], cells[at + 1])
    }
    pub fn ids(&self, cells: &[u32], at: usize, below: u64) -> bool {
        let (s, n) = Self::span(cells, at);
        self.list(s, n).is_some_and(|ids| ids.iter().all(|i| *i < below))
    }
    pub fn good(&self, table: usize, i: usize) -> bool {
        let n = self.n;
        match table {
            TYPES => {
                let c = &self.t[i * 16..];
                c[0] == 0
                    || c[0] <= 6 && c[1] <= 15 && c[2] <= u32::MAX as u64 && c[3] <= 1 && signed32(c[4]) && c[5] <= 8
                        && (c[0] < 4 || c[8..8 + c[5] as usize].iter().all(|d| signed32(*d)))
            }
            VALUES => {
                let c = &self.v[i * 4..];
                c[0] < n[TYPES] && c[1] <= 1 && (c[1] == 0 || c[2] < n[OPERATIONS])
            }
            OPERATIONS => {
                let at = i * 16;
                self.o[at] <= 104
                    && self.ids(&self.o, at + 1, n[TYPES])
                    && self.ids(&self.o, at + 3, n[VALUES])
                    && self.ids(&self.o, at + 5, n[REGIONS])
                    && self.o[at + 7] as u64 + self.o[at + 8] as u64 <= n[ATTRIBUTES]
            }
            ATTRIBUTES => {
                let at = i * 8;
                let (name, form, absent) = (self.a[at], self.a[at + 1], self.a[at + 4]);
                let (s, len) = Self::span(&self.a, at + 2);
                let Some(xs) = self.list(s, len) else { return false };
                let flags = || xs.iter().all(|x| *x <= 1);
                name <= 13
                    && match form {
                        0 => len == 1 && absent == 0,
                        1 => len == 1 && absent == 0 && flags(),
                        2 | 6 => absent == 0,
                        3 => absent == 0 && flags(),
                        4 => absent == 0 && xs.iter().all(|x| signed32(*x)),
                        5 => len == 3 && absent & !6 == 0,
                        7 => len == 2 && absent & !3 == 0,
                        8 => len == 0 && absent == 0,
                        _ => false,
                    }
            }
            BLOCKS => self.ids(&self.b, i * 4, n[VALUES]) && self.ids(&self.b, i * 4 + 2, n[OPERATIONS]),
            REGIONS => self.ids(&self.r, i * 2, n[BLOCKS]),
            _ => (self.f[i] as u64) < n[OPERATIONS],
        }
    }
    pub fn lengths(&self, table: usize, i: usize) -> u64 {
        let of = |cells: &[u32], ats: &[usize]| ats.iter().map(|at| cells[*at] as u64).sum();
        match table {
            OPERATIONS => of(&self.o, &[i * 16 + 2, i * 16 + 4, i * 16 + 6]),
            ATTRIBUTES => of(&self.a, &[i * 8 + 3]),
            BLOCKS => of(&self.b, &[i * 4 + 1, i * 4 + 3]),
            REGIONS => of(&self.r, &[i * 2 + 1]),
            _ => 0,
        }
    }
    pub fn operands_of(&self, table: usize, i: u64, at: usize) -> Vec<u64> {
        let i = i as usize;
        let (s, n) = match table {
            OPERATIONS => Self::span(&self.o, i * 16 + at),
            BLOCKS => Self::span(&self.b, i * 4 + at),
            _ => Self::span(&self.r, i * 2 + at),
        };
        self.list(s, n).unwrap().to_vec()
    }
    pub fn functions(&self) -> Vec<u64> {
        self.f[..self.n[FUNCTIONS] as usize].iter().map(|f| *f as u64).collect()
    }
    // How many operands all operations have: no list of numbers is longer.
    pub fn all_operands(&self) -> usize {
        (0..self.n[OPERATIONS] as usize).map(|i| self.o[i * 16 + 4] as usize).sum()
    }
    // Reachable operations, outer before inner.
    pub fn walk_order(&self) -> Vec<u64> {
        fn go(x: &Tables, i: u64, out: &mut Vec<u64>) {
            out.push(i);
            for k in x.operands_of(OPERATIONS, i, 5) {
                for j in x.operands_of(REGIONS, k, 0) {
                    x.operands_of(BLOCKS, j, 2).into_iter().for_each(|inner| go(x, inner, out));
                }
            }
        }
        let mut out = vec![];
        self.functions().into_iter().for_each(|f| go(self, f, &mut out));
        out
    }
    // The value that claims each declared result, by operation, in the values' order.
    pub fn values_of_results(&self) -> Vec<Vec<u64>> {
        let mut results = vec![vec![]; self.n[OPERATIONS] as usize];
        for v in 0..self.n[VALUES] {
            let c = &self.v[v as usize * 4..];
            if c[1] == 1 && c[3] < self.o[c[2] as usize * 16 + 2] as u64 {
                results[c[2] as usize].push(v);
            }
        }
        results
    }
    // Code 1 over some of the tables: sizes, entries as `good` wants them, list entries in all.
    fn ranged(&self, tables: &[usize], good: impl Fn(usize, usize) -> bool) -> Option<Answer> {
        let mut entries = 0;
        for table in tables {
            for i in 0..self.n[*table] {
                if i >= SIZES[*table] || (i as usize + 1) * WIDTHS[*table] > self.cells(*table) || !good(*table, i as usize) {
                    return Some([1, *table as u64 + 1, i]);
                }
                entries += self.lengths(*table, i as usize);
                if entries > 8192 {
                    return Some([1, *table as u64 + 1, i]);
                }
            }
        }
        None
    }
    pub fn judge(&self) -> Answer {
        self.judge_with(true)
    }
    // With a rule sheet: one that is out of range is asked after the tables' own ranges, as table 8.
    pub fn judge_with(&self, good_sheet: bool) -> Answer {
        let ranged = self.ranged(&[0, 1, 2, 3, 4, 5, 6], |table, i| self.good(table, i));
        let ranged = ranged.or((!good_sheet).then_some([1, 8, 0]));
        ranged.or_else(|| self.twice()).or_else(|| self.deep()).or_else(|| self.values()).unwrap_or(ACCEPTED)
    }
    // What reading back asks: nothing of values, types, opcodes and attributes.
    pub fn judge_nesting(&self) -> Answer {
        let good = |table, i: usize| match table {
            OPERATIONS => self.ids(&self.o, i * 16 + 5, self.n[REGIONS]),
            BLOCKS => self.ids(&self.b, i * 4 + 2, self.n[OPERATIONS]),
            _ => self.good(table, i),
        };
        self.ranged(&[OPERATIONS, BLOCKS, REGIONS, FUNCTIONS], good).or_else(|| self.twice()).or_else(|| self.deep()).unwrap_or(ACCEPTED)
    }
    pub fn twice(&self) -> Option<Answer> {
        let mut listed: [Vec<u64>; 3] = Default::default();
        listed[0].extend(self.functions());
        (0..self.n[BLOCKS]).for_each(|j| listed[0].extend(self.operands_of(BLOCKS, j, 2)));
        (0..self.n[REGIONS]).for_each(|k| listed[1].extend(self.operands_of(REGIONS, k, 0)));
        (0..self.n[OPERATIONS]).for_each(|i| listed[2].extend(self.operands_of(OPERATIONS, i, 5)));
        for (kind, ids) in listed.iter().enumerate() {
            let mut times = HashMap::new();
            ids.iter().for_each(|i| *times.entry(*i).or_insert(0) += 1);
            if let Some(i) = times.iter().filter(|(_, n)| **n > 1).map(|(i, _)| *i).min() {
                return Some([2, i, kind as u64]);
            }
        }
        None
    }
    pub fn deep(&self) -> Option<Answer> {
        fn open(x: &Tables, i: u64, depth: u64) -> Option<Answer> {
            for k in x.operands_of(OPERATIONS, i, 5) {
                for j in x.operands_of(REGIONS, k, 0) {
                    if depth == 32 {
                        return Some([3, i, 0]);
                    }
                    for inner in x.operands_of(BLOCKS, j, 2) {
                        if let Some(a) = open(x, inner, depth + 1) {
                            return Some(a);
                        }
                    }
                }
            }
            None
        }
        self.functions().into_iter().find_map(|f| open(self, f, 0))
    }
    pub fn values(&self) -> Option<Answer> {
        let mut listed = vec![0; self.n[VALUES] as usize];
        (0..self.n[BLOCKS]).for_each(|j| self.operands_of(BLOCKS, j, 0).iter().for_each(|v| listed[*v as usize] += 1));
        let mut claimed: HashMap<(u64, u64), u64> = HashMap::new();
        for v in 0..self.n[VALUES] {
            let c = &self.v[v as usize * 4..];
            let declared = c[1] == 1 && c[3] < self.o[c[2] as usize * 16 + 2] as u64;
            let before = c[1] == 1 && claimed.contains_key(&(c[2], c[3]));
            if listed[v as usize] > 1 || declared && (listed[v as usize] > 0 || before) {
                return Some([4, v, 0]);
            }
            if c[1] == 1 {
                claimed.entry((c[2], c[3])).or_insert(v);
            }
        }
        None
    }
}

// ---- making tables

pub struct Random(pub u64);

impl Random {
    pub fn next(&mut self) -> u64 {
        self.0 ^= self.0 << 13;
        self.0 ^= self.0 >> 7;
        self.0 ^= self.0 << 17;
        self.0
    }
    pub fn below(&mut self, n: u64) -> u64 {
        self.next() % n.max(1)
    }
    pub fn one_of<T: Clone>(&mut self, xs: &[T]) -> T {
        xs[self.below(xs.len() as u64) as usize].clone()
    }
    // Once in n times.
    pub fn once_in(&mut self, n: u64) -> bool {
        self.below(n) == 0
    }
    // The ids below n in some order.
    pub fn permutation(&mut self, n: u64) -> Vec<u64> {
        let mut p: Vec<u64> = (0..n).collect();
        (1..n).rev().for_each(|i| p.swap(i as usize, self.below(i + 1) as usize));
        p
    }
}

// Where a permutation puts each id.
pub fn inverse(p: &[u64]) -> Vec<u64> {
    let mut q = vec![0; p.len()];
    p.iter().enumerate().for_each(|(old, new)| q[*new as usize] = old as u64);
    q
}

// A builder of tables: rows are added, lists are laid out one after the other.
impl Tables {
    pub fn list_of(&mut self, ids: &[u64]) -> (u32, u32) {
        let start = self.l.len() as u32;
        self.l.extend(ids);
        (start, ids.len() as u32)
    }
    pub fn typed(&mut self, form: u64, kind: u64, dims: &[u64]) {
        let mut row = [form, kind, 0, 0, u64::MAX, dims.len() as u64, 0, 0, 0, 0, 0, 0, 0, 0, 0, 0];
        row[8..8 + dims.len()].copy_from_slice(dims);
        self.t.extend(row);
        self.n[TYPES] += 1;
    }
    pub fn value(&mut self, ty: u64, claim: Option<(u64, u64)>) {
        self.v.extend(claim.map_or([ty, 0, 0, 0], |(i, k)| [ty, 1, i, k]));
        self.n[VALUES] += 1;
    }
    pub fn operation(&mut self, opcode: u32, results: &[u64], operands: &[u64], regions: &[u64], attributes: (u32, u32)) {
        let (rs, rn) = self.list_of(results);
        let (os, on) = self.list_of(operands);
        let (gs, gn) = self.list_of(regions);
        self.o.extend([opcode, rs, rn, os, on, gs, gn, attributes.0, attributes.1, 0, 0, 0, 0, 0, 0, 0]);
        self.n[OPERATIONS] += 1;
    }
    pub fn attribute(&mut self, name: u32, form: u32, numbers: &[u64], absent: u32) {
        let (s, n) = self.list_of(numbers);
        self.a.extend([name, form, s, n, absent, 0, 0, 0]);
        self.n[ATTRIBUTES] += 1;
    }
    pub fn block(&mut self, arguments: &[u64], operations: &[u64]) {
        let (s, n) = self.list_of(arguments);
        let (os, on) = self.list_of(operations);
        self.b.extend([s, n, os, on]);
        self.n[BLOCKS] += 1;
    }
    pub fn region(&mut self, blocks: &[u64]) {
        let (s, n) = self.list_of(blocks);
        self.r.extend([s, n]);
        self.n[REGIONS] += 1;
    }
    pub fn function(&mut self, operation: u32) {
        self.f.push(operation);
        self.n[FUNCTIONS] += 1;
    }
}

// A minor version and an sm number of the lists.
pub fn target(r: &mut Random) -> (u64, u64) {
    let version = 2 + r.below(3);
    (version, r.one_of(&[80, 86, 87, 88, 89, 90, 100, 103, 107, 110, 120, 121]))
}

// A random module that mostly passes: nesting drawn first, then all ids permuted, so that they do not rise with nesting.
pub fn random_module(r: &mut Random) -> Tables {
    let most = if r.below(50) == 0 { 2000 } else { 40 };
    let operations = 1 + r.below(most);
    let mut parent_block: Vec<Option<u64>> = vec![None];
    let (mut region_of_block, mut owner_of_region): (Vec<u64>, Vec<u64>) = (vec![], vec![]);
    for _ in 1..operations {
        // a new block now and then, in a new or an old region
        if region_of_block.is_empty() || r.below(4) == 0 && region_of_block.len() < 500 {
            if owner_of_region.is_empty() || r.below(3) > 0 && owner_of_region.len() < 500 {
                owner_of_region.push(r.below(parent_block.len() as u64));
            }
            region_of_block.push(r.below(owner_of_region.len() as u64));
        }
        parent_block.push(if r.below(20) == 0 { None } else { Some(r.below(region_of_block.len() as u64)) });
    }
    let (po, pb, pr) =
        (r.permutation(operations), r.permutation(region_of_block.len() as u64), r.permutation(owner_of_region.len() as u64));
    let results: Vec<u64> = (0..operations).map(|_| r.below(3)).collect();
    let mut x = Tables::default();
    (0..1 + r.below(3)).for_each(|i| x.typed(1 + i, i, &[2]));
    let types = x.n[TYPES];
    let mut values: Vec<Option<(u64, u64)>> = vec![];
    let mut arguments: Vec<Vec<u64>> = vec![vec![]; region_of_block.len()];
    for i in 0..operations {
        (0..results[i as usize]).for_each(|k| values.push(Some((po[i as usize], k))));
    }
    let mut owners: Vec<Option<usize>> = vec![None; values.len()];
    for j in 0..region_of_block.len() {
        (0..r.below(3)).for_each(|_| {
            values.push(None);
            owners.push(Some(j));
        });
    }
    let pv = r.permutation(values.len() as u64);
    let placed = inverse(&pv);
    owners.iter().enumerate().filter_map(|(v, j)| j.map(|j| (v, j))).for_each(|(v, j)| arguments[j].push(placed[v]));
    pv.iter().for_each(|old| x.value(r.below(types), values[*old as usize]));
    for old in inverse(&po) {
        let regions: Vec<u64> =
            (0..owner_of_region.len()).filter(|k| owner_of_region[*k] == old).map(|k| pr[k]).collect();
        let types_of: Vec<u64> = (0..results[old as usize]).map(|_| r.below(types)).collect();
        let operands: Vec<u64> = (0..r.below(3)).filter(|_| !values.is_empty()).map(|_| r.below(values.len() as u64)).collect();
        x.operation(r.below(105) as u32, &types_of, &operands, &regions, (0, 0));
    }
    for old in inverse(&pb) {
        let inside: Vec<u64> = (0..operations).filter(|i| parent_block[*i as usize] == Some(old)).map(|i| po[i as usize]).collect();
        x.block(&arguments[old as usize], &inside);
    }
    for old in inverse(&pr) {
        let inside: Vec<u64> = (0..pb.len()).filter(|j| region_of_block[*j] == old).map(|j| pb[j]).collect();
        x.region(&inside);
    }
    (0..operations).filter(|i| parent_block[*i as usize].is_none()).take(64).for_each(|i| x.function(po[i as usize] as u32));
    x
}

// ---- the house text

pub const NAMES: [&str; 14] = [
    "any_other", "rounding_mode", "saturating", "inbounds", "fast_acc", "producer", "permutation", "mode", "memory_ordering_semantics",
    "memory_scope", "num_elem", "alignment", "operandSegmentSizes", "flush_to_zero",
];

impl Tables {
    // An attribute's numbers: an absent one is empty, a divisor is unsigned.
    fn numbers(&self, a: &[u32]) -> String {
        let xs = self.list(a[2], a[3]).unwrap().iter().enumerate();
        let written = xs.map(|(k, x)| match (a[4] >> k & 1, a[1], k) {
            (1, _, _) => String::new(),
            (_, 5, 0) => x.to_string(),
            _ => (*x as i64).to_string(),
        });
        written.collect::<Vec<_>>().join(",")
    }
    // The lines of the module; every number as the text writes it.
    pub fn text(&self, version: u64, sm: u64) -> String {
        let list = |xs: &[u64]| xs.iter().map(|x| (*x as i64).to_string()).collect::<Vec<_>>().join(",");
        let at = |cells: &[u32], k: usize| list(self.list(cells[k], cells[k + 1]).unwrap());
        let mut out = format!("tile\t1\t{version}\t{sm}\n");
        for i in 0..self.n[TYPES] as usize {
            let c = &self.t[i * 16..i * 16 + 16];
            out += &format!("T\t{}\t{}\t{}\t{}\t{}\t{}\n", c[0], c[1], c[2], c[3], c[4] as i64, list(&c[8..8 + c[5] as usize]));
        }
        for v in 0..self.n[VALUES] as usize {
            let c = &self.v[v * 4..v * 4 + 4];
            out += &if c[1] == 1 { format!("V\t{}\t{}\t{}\n", c[0], c[2], c[3] as i64) } else { format!("V\t{}\t\t\n", c[0]) };
        }
        for i in 0..self.n[OPERATIONS] as usize {
            let k = i * 16;
            out += &format!("O\t{}\t{}\t{}\t{}\n", self.o[k], at(&self.o, k + 1), at(&self.o, k + 3), at(&self.o, k + 5));
            for m in self.o[k + 7]..self.o[k + 7] + self.o[k + 8] {
                let a = &self.a[m as usize * 8..];
                out += &format!("A\t{}\t{}\t{}\n", NAMES[a[0] as usize], &"ibazpdsrx"[a[1] as usize..][..1], self.numbers(a));
            }
        }
        for j in 0..self.n[BLOCKS] as usize {
            out += &format!("B\t{}\t{}\n", at(&self.b, j * 4), at(&self.b, j * 4 + 2));
        }
        (0..self.n[REGIONS] as usize).for_each(|k| out += &format!("R\t{}\n", at(&self.r, k * 2)));
        (0..self.n[FUNCTIONS] as usize).for_each(|p| out += &format!("F\t{}\n", self.f[p]));
        out
    }
}
