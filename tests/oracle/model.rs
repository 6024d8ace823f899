// A module as rows that can be changed: drawn by the generator, cut by the shrinker, laid out as tables.
use crate::shared::rules::{Attribute, Ty};
use crate::shared::tables::*;
use std::ops::Range;

#[derive(Clone, Default)]
pub struct Row {
    pub opcode: u32,
    pub results: Vec<u64>,
    pub operands: Vec<u64>,
    pub regions: Vec<u64>,
    pub attributes: Vec<Attribute>,
}

#[derive(Clone, Default)]
pub struct Model {
    pub version: u64,
    pub sm: u64,
    pub types: Vec<Ty>,
    pub values: Vec<(u64, Option<(u64, u64)>)>, // the type, and the result that is claimed
    pub operations: Vec<Row>,
    pub blocks: Vec<(Vec<u64>, Vec<u64>)>, // arguments, operations
    pub regions: Vec<Vec<u64>>,
    pub functions: Vec<u64>,
}

// Rows in the order that a permutation of their ids asks for.
fn placed<T>(rows: Vec<T>, p: &[u64]) -> Vec<T> {
    let mut rows: Vec<(u64, T)> = p.iter().copied().zip(rows).collect();
    rows.sort_by_key(|(at, _)| *at);
    rows.into_iter().map(|(_, row)| row).collect()
}

impl Model {
    pub fn of(x: &Tables, version: u64, sm: u64) -> Model {
        let list = |cells: &[u32], at: usize| x.list(cells[at], cells[at + 1]).unwrap().to_vec();
        let attribute = |k: usize| {
            let a = &x.a[k * 8..];
            Attribute { name: a[0], form: a[1], numbers: list(&x.a, k * 8 + 2), absent: a[4] }
        };
        let ty = |c: &[u64]| Ty {
            form: c[0],
            kind: c[1],
            pointer: c[2],
            padded: c[3],
            sparse: c[4] as i64,
            dims: c[8..8 + c[5] as usize].iter().map(|d| *d as i64).collect(),
        };
        let row = |i: usize| Row {
            opcode: x.o[i * 16],
            results: list(&x.o, i * 16 + 1),
            operands: list(&x.o, i * 16 + 3),
            regions: list(&x.o, i * 16 + 5),
            attributes: (x.o[i * 16 + 7]..x.o[i * 16 + 7] + x.o[i * 16 + 8]).map(|k| attribute(k as usize)).collect(),
        };
        let count = |table: usize| 0..x.n[table] as usize;
        Model {
            version,
            sm,
            types: count(TYPES).map(|i| ty(&x.t[i * 16..])).collect(),
            values: count(VALUES).map(|v| &x.v[v * 4..]).map(|c| (c[0], (c[1] == 1).then_some((c[2], c[3])))).collect(),
            operations: count(OPERATIONS).map(row).collect(),
            blocks: count(BLOCKS).map(|j| (list(&x.b, j * 4), list(&x.b, j * 4 + 2))).collect(),
            regions: count(REGIONS).map(|k| list(&x.r, k * 2)).collect(),
            functions: x.functions(),
        }
    }
    pub fn tables(&self) -> Tables {
        let mut x = Tables::default();
        for t in &self.types {
            x.typed(t.form, t.kind, &t.dims.iter().map(|d| *d as u64).collect::<Vec<_>>());
            let at = x.t.len() - 16;
            x.t[at + 2..at + 5].copy_from_slice(&[t.pointer, t.padded, t.sparse as u64]);
        }
        self.values.iter().for_each(|(t, claim)| x.value(*t, *claim));
        for row in &self.operations {
            let first = x.n[ATTRIBUTES] as u32;
            row.attributes.iter().for_each(|a| x.attribute(a.name, a.form, &a.numbers, a.absent));
            x.operation(row.opcode, &row.results, &row.operands, &row.regions, (first, row.attributes.len() as u32));
        }
        self.blocks.iter().for_each(|(arguments, operations)| x.block(arguments, operations));
        self.regions.iter().for_each(|blocks| x.region(blocks));
        self.functions.iter().for_each(|i| x.function(*i as u32));
        x
    }
    pub fn text(&self) -> String {
        let signed = |n: u64| (n as i64).to_string();
        let text = self.tables().text(0, 0);
        format!("tile\t1\t{}\t{}\n{}", signed(self.version), signed(self.sm), text.split_once('\n').unwrap().1)
    }
    pub fn count(&self, table: usize) -> usize {
        match table {
            TYPES => self.types.len(),
            VALUES => self.values.len(),
            OPERATIONS => self.operations.len(),
            ATTRIBUTES => self.operations.iter().map(|row| row.attributes.len()).sum(),
            BLOCKS => self.blocks.len(),
            REGIONS => self.regions.len(),
            _ => self.functions.len(),
        }
    }

    // ---- ids

    // Every list of ids of a table.
    pub fn lists(&mut self, table: usize) -> Vec<&mut Vec<u64>> {
        let rows = self.operations.iter_mut();
        match table {
            TYPES => rows.map(|row| &mut row.results).collect(),
            VALUES => rows.map(|row| &mut row.operands).chain(self.blocks.iter_mut().map(|b| &mut b.0)).collect(),
            OPERATIONS => self.blocks.iter_mut().map(|b| &mut b.1).chain([&mut self.functions]).collect(),
            BLOCKS => self.regions.iter_mut().collect(),
            REGIONS => rows.map(|row| &mut row.regions).collect(),
            _ => vec![],
        }
    }
    fn renumber(&mut self, table: usize, to: impl Fn(u64) -> u64) {
        self.lists(table).into_iter().flatten().for_each(|i| *i = to(*i));
        match table {
            TYPES => self.values.iter_mut().for_each(|v| v.0 = to(v.0)),
            OPERATIONS => self.values.iter_mut().filter_map(|v| v.1.as_mut()).for_each(|claim| claim.0 = to(claim.0)),
            _ => {}
        }
    }
    // All ids permuted, so that they do not rise with nesting.
    pub fn permute(&mut self, r: &mut Random) {
        for table in [TYPES, VALUES, OPERATIONS, BLOCKS, REGIONS] {
            let p = r.permutation(self.count(table) as u64);
            self.renumber(table, |i| p.get(i as usize).copied().unwrap_or(i));
            match table {
                TYPES => self.types = placed(std::mem::take(&mut self.types), &p),
                VALUES => self.values = placed(std::mem::take(&mut self.values), &p),
                OPERATIONS => self.operations = placed(std::mem::take(&mut self.operations), &p),
                BLOCKS => self.blocks = placed(std::mem::take(&mut self.blocks), &p),
                _ => self.regions = placed(std::mem::take(&mut self.regions), &p),
            }
        }
    }
    // Without some rows of a table: who lists one lists it no more, whose type it was has type 0, who claimed its result claims none.
    pub fn without(&self, table: usize, gone: Range<usize>) -> Model {
        let mut m = self.clone();
        let is_gone = |i: u64| gone.contains(&(i as usize));
        let many = gone.len() as u64;
        m.lists(table).into_iter().for_each(|ids| ids.retain(|i| !is_gone(*i)));
        match table {
            TYPES => m.values.iter_mut().filter(|v| is_gone(v.0)).for_each(|v| v.0 = 0),
            OPERATIONS => m.values.iter_mut().filter(|v| v.1.is_some_and(|c| is_gone(c.0))).for_each(|v| v.1 = None),
            _ => {}
        }
        m.renumber(table, |i| if i >= gone.end as u64 { i - many } else { i });
        let mut at = 0;
        match table {
            TYPES => drop(m.types.drain(gone)),
            VALUES => drop(m.values.drain(gone)),
            OPERATIONS => drop(m.operations.drain(gone)),
            ATTRIBUTES => m.operations.iter_mut().for_each(|row| {
                row.attributes.retain(|_| {
                    at += 1;
                    !is_gone(at - 1)
                })
            }),
            BLOCKS => drop(m.blocks.drain(gone)),
            REGIONS => drop(m.regions.drain(gone)),
            _ => drop(m.functions.drain(gone)),
        }
        m
    }
    // What stands inside an operation put in its place, arguments among those of the block around; the operation is listed no more.
    pub fn unwrapped(&self, i: usize) -> Option<Model> {
        let mut m = self.clone();
        let inside: Vec<u64> = m.operations[i].regions.drain(..).flat_map(|k| self.regions.get(k as usize).cloned().unwrap_or_default()).collect();
        let (arguments, operations): (Vec<_>, Vec<_>) = inside.iter().filter_map(|j| self.blocks.get(*j as usize).cloned()).unzip();
        inside.iter().for_each(|j| m.blocks.get_mut(*j as usize).into_iter().for_each(|b| *b = Default::default()));
        let around = m.blocks.iter_mut().find_map(|b| b.1.iter().position(|o| *o == i as u64).map(|at| (b, at)));
        let (block, at) = around.filter(|_| !inside.is_empty())?;
        block.1.splice(at..=at, operations.concat());
        block.0.extend(arguments.concat());
        Some(m)
    }
    // An operation without rule and attributes in place of another.
    pub fn simpler(&self, i: usize) -> Option<Model> {
        let mut m = self.clone();
        let row = &mut m.operations[i];
        let simple = row.attributes.is_empty() && matches!(row.opcode, 3 | 22);
        (row.opcode, row.attributes) = (if m.functions.contains(&(i as u64)) { 22 } else { 3 }, vec![]);
        (!simple).then_some(m)
    }
}
