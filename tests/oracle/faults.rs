// One fault of some code put into a module, or a near miss of it.
use crate::model::{Model, Row};
use crate::shared::rules::{attribute, ty, Attribute, TILE};
use crate::shared::sheet::{self, Sheet};
use crate::shared::tables::*;

fn index<T>(xs: &[T], r: &mut Random) -> Option<usize> {
    (!xs.is_empty()).then(|| r.below(xs.len() as u64) as usize)
}

pub fn spoil(m: &mut Model, s: &mut Sheet, r: &mut Random) {
    match r.below(20) {
        0 | 1 => out_of_range(m, r),
        2 => sheet_range(s, r),
        3 | 4 => listed_twice(m, r),
        5..=7 => value_twice(m, r),
        8..=12 => stray(m, r),
        13..=15 => no_value(m, r),
        16 => target_out_of_list(m, r),
        17 => other_pointer_attribute(m, r),
        18 if r.once_in(2) => sizes(m, r),
        18 => nest_loops(m, r),
        _ => count(m, s, r),
    }
}

// Code 1: an id one past its table, or the last one.
fn out_of_range(m: &mut Model, r: &mut Random) {
    let table = r.one_of(&[TYPES, VALUES, OPERATIONS, BLOCKS, REGIONS]);
    let id = (m.count(table) as u64).wrapping_sub(r.once_in(4) as u64) & u32::MAX as u64;
    match (table, r.once_in(2)) {
        (TYPES, true) => index(&m.values, r).into_iter().for_each(|v| m.values[v].0 = id),
        (OPERATIONS, true) => index(&m.values, r).into_iter().for_each(|v| m.values[v].1 = Some((id, 0))),
        _ => {
            let mut lists = m.lists(table);
            if let Some(k) = index(&lists, r) {
                match index(lists[k], r) {
                    Some(at) => lists[k][at] = id,
                    None => lists[k].push(id),
                }
            }
        }
    }
}

// Code 1: a table, or the list entries, at the size and one past it.
fn sizes(m: &mut Model, r: &mut Random) {
    let table = r.below(8) as usize;
    if table == 7 {
        let entries: u64 = (2..6).map(|k| (0..m.count(k)).map(|i| m.tables().lengths(k, i)).sum::<u64>()).sum();
        let numbers = vec![1; (8192 - entries.min(8192) + r.below(2)) as usize];
        m.operations.iter_mut().take(1).for_each(|row| row.attributes.push(Attribute { name: 0, form: 2, numbers: numbers.clone(), absent: 0 }));
        return;
    }
    let past = SIZES[table] as usize + r.below(2) as usize;
    let missing = past.saturating_sub(m.count(table));
    let first = m.operations.len() as u64;
    match table {
        TYPES => m.types.resize(m.types.len() + missing, ty(TILE, 4, &[])),
        VALUES if !m.types.is_empty() => m.values.resize(m.values.len() + missing, (0, None)),
        OPERATIONS => m.operations.resize(m.operations.len() + missing, Row { opcode: 3, ..Row::default() }),
        ATTRIBUTES => m.operations.iter_mut().take(1).for_each(|row| row.attributes.resize(row.attributes.len() + missing, attribute(7, 8, &[], 0))),
        BLOCKS => m.blocks.resize(m.blocks.len() + missing, (vec![], vec![])),
        REGIONS => m.regions.resize(m.regions.len() + missing, vec![]),
        FUNCTIONS => {
            m.operations.resize(m.operations.len() + missing, Row { opcode: 22, ..Row::default() });
            m.functions.extend(first..first + missing as u64);
        }
        _ => {}
    }
}

// Code 1 with 8: a width or a count at the limit or one past it.
fn sheet_range(s: &mut Sheet, r: &mut Random) {
    if r.once_in(2) {
        let count = r.one_of(&[8192, 8193, u64::MAX]);
        sheet::fix(s, r.below(105) as usize, count);
    } else {
        sheet::set_width(s, r.below(16) as usize, r.one_of(&[8, 9, u64::MAX]));
    }
}

// Code 2: one id again in some list of its table.
fn listed_twice(m: &mut Model, r: &mut Random) {
    let table = r.one_of(&[OPERATIONS, BLOCKS, REGIONS]);
    let mut lists = m.lists(table);
    let all: Vec<u64> = lists.iter().flat_map(|ids| ids.iter().copied()).collect();
    if let (Some(k), Some(from)) = (index(&lists, r), index(&all, r)) {
        let at = r.below(lists[k].len() as u64 + 1) as usize;
        lists[k].insert(at, all[from]);
    }
}

// Code 4: an argument listed again, a result listed, a result claimed again; and a claim of what is not declared.
fn value_twice(m: &mut Model, r: &mut Random) {
    let (Some(v), Some(w), Some(j)) = (index(&m.values, r), index(&m.values, r), index(&m.blocks, r)) else { return };
    match r.below(4) {
        0 | 1 => m.blocks[j].0.push(v as u64),
        2 => m.values[w].1 = m.values[v].1,
        _ => m.values[w].1 = index(&m.operations, r).map(|i| (i as u64, m.operations[i].results.len() as u64)),
    }
}

// Code 5, and 8 in numbering alone: an operand that is any value, one near its own, a result of an operation around or of its own.
fn stray(m: &mut Model, r: &mut Random) {
    let with: Vec<usize> = (0..m.operations.len()).filter(|i| !m.operations[*i].operands.is_empty()).collect();
    let (Some(k), Some(any)) = (index(&with, r), index(&m.values, r)) else { return };
    let i = with[k];
    let own: Vec<usize> = (0..m.values.len()).filter(|v| m.values[*v].1.is_some_and(|(o, _)| o.abs_diff(i as u64) < 2)).collect();
    let v = if r.once_in(2) { any } else { index(&own, r).map_or(any, |k| own[k]) };
    let at = r.below(m.operations[i].operands.len() as u64) as usize;
    m.operations[i].operands[at] = v as u64;
}

// Code 7: a result that nobody claims; the claim is gone, or of a result that is not declared, some of them out of the Rust's range.
fn no_value(m: &mut Model, r: &mut Random) {
    let claims: Vec<usize> = (0..m.values.len()).filter(|v| m.values[*v].1.is_some()).collect();
    let Some(k) = index(&claims, r) else { return };
    let claim = &mut m.values[claims[k]].1;
    let past = r.one_of(&[1, 2, 7]);
    *claim = match r.below(12) {
        0..=4 => None,
        5..=10 => claim.map(|(i, k)| (i, k + past)),
        _ => claim.map(|(i, _)| (i, r.one_of(&[u64::MAX, 1 << 32, 1 << 63]))),
    };
}

// Code 16: a version or an sm number beside the lists.
fn target_out_of_list(m: &mut Model, r: &mut Random) {
    if r.once_in(2) {
        m.version = r.one_of(&[1, 5, 0, u64::MAX, (1 << 32) + 4]);
    } else {
        m.sm = r.one_of(&[79, 81, 99, 101, 122, 0, u64::MAX, (1 << 32) + 100, 1 << 63]);
    }
}

// Two different pointer attributes, which the Rust cannot tell apart.
fn other_pointer_attribute(m: &mut Model, r: &mut Random) {
    if let Some(t) = index(&m.types, r) {
        m.types[t].pointer = 8;
        if let Some(u) = index(&m.types, r).filter(|_| r.once_in(2)) {
            m.types[u].pointer = 7;
        }
    }
}

// A Return inside a loop: opcodes of operations that nest, and of those inside.
fn nest_loops(m: &mut Model, r: &mut Random) {
    for row in &mut m.operations {
        if !row.regions.is_empty() && row.opcode != 22 {
            row.opcode = r.one_of(&[29, 47]);
        } else if r.once_in(2) && row.opcode < 93 && row.results.is_empty() {
            row.opcode = 74;
        }
    }
}

// Code 6: a fixed count one off that of some operation, or its own.
fn count(m: &Model, s: &mut Sheet, r: &mut Random) {
    if let Some(i) = index(&m.operations, r) {
        let row = &m.operations[i];
        sheet::fix(s, row.opcode as usize, (row.results.len() as u64 + r.below(3)).saturating_sub(1));
    }
}
