// A case on which the bench and what is due differ, made smaller while they differ in the same part.
use crate::draw::Case;
use crate::model::Model;
use crate::plain::Plain;
use crate::shared::tables::*;
use std::ops::Range;

const TABLES: [usize; 7] = [FUNCTIONS, OPERATIONS, BLOCKS, REGIONS, VALUES, ATTRIBUTES, TYPES];
// How many bytes of candidates are tried at once.
const AT_ONCE: usize = 1 << 22;

fn parts(n: usize, size: usize) -> impl Iterator<Item = Range<usize>> {
    (0..n).step_by(size).map(move |at| at..(at + size).min(n))
}

// The module without one id of some list, but for lists of types, which number the results.
fn without_an_id(m: &Model) -> Vec<Model> {
    let mut all = vec![];
    for table in [VALUES, REGIONS, OPERATIONS, BLOCKS] {
        let lengths: Vec<usize> = m.clone().lists(table).iter().map(|ids| ids.len()).collect();
        for (k, n) in lengths.into_iter().enumerate().filter(|(_, n)| *n < 64) {
            for at in 0..n {
                let mut cut = m.clone();
                cut.lists(table)[k].remove(at);
                all.push(cut);
            }
        }
    }
    all
}

fn without_lines(text: &[u8], size: usize) -> Vec<Vec<u8>> {
    let lines: Vec<&[u8]> = text.split_inclusive(|b| *b == b'\n').collect();
    let all = parts(lines.len(), size);
    all.map(|gone| [&lines[..gone.start], &lines[gone.end..]].concat().concat()).collect()
}

// Smaller cases: of so many rows or lines less.
fn smaller(case: &Case, size: usize) -> Vec<Case> {
    let mut all: Vec<Case> = without_lines(&case.sheet, size).into_iter().map(|sheet| Case { sheet, ..case.clone() }).collect();
    let Some(m) = &case.model else {
        // A damaged text that reads is written anew from its tables, whose rows can then be dropped.
        let m = Plain::of(case).asked.map(|q| Model::of(&q.x, q.version, q.sm));
        all.extend(m.map(|m| Case { text: m.text().into(), model: Some(m), ..case.clone() }));
        all.extend(without_lines(&case.text, size).into_iter().map(|text| Case { text, ..case.clone() }));
        return all;
    };
    let rows = TABLES.iter().flat_map(|table| parts(m.count(*table), size).map(|gone| m.without(*table, gone)));
    let each = 0..if size == 1 { m.operations.len() } else { 0 };
    let simpler = each.clone().filter_map(|i| m.unwrapped(i)).chain(each.clone().filter_map(|i| m.simpler(i)));
    let ids = if size == 1 { without_an_id(m) } else { vec![] };
    all.extend(rows.chain(simpler).chain(ids).map(|m| Case { text: m.text().into(), model: Some(m), ..case.clone() }));
    all
}

// `differs` tells which of some cases still differ.
pub fn shrink(mut case: Case, differs: impl Fn(&[(Case, Plain)]) -> Vec<bool>) -> Case {
    let lines = |case: &Case| case.text.iter().filter(|b| **b == b'\n').count();
    let mut size = lines(&case).max(1).next_power_of_two() / 2;
    while size > 0 {
        let mut found = None;
        let mut left = smaller(&case, size).into_iter().peekable();
        while left.peek().is_some() && found.is_none() {
            let mut bytes = 0;
            let mut now = vec![];
            while let Some(c) = left.next_if(|_| bytes < AT_ONCE) {
                bytes += c.text.len() + c.sheet.len();
                let plain = Plain::of(&c);
                now.push((c, plain));
            }
            let k = differs(&now).iter().position(|d| *d);
            found = k.map(|k| now.swap_remove(k).0);
        }
        match found {
            Some(smaller) => case = smaller,
            None => size /= 2,
        }
    }
    case
}
