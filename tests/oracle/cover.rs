// What the modules of a run covered, and what was left out though it can occur.
use crate::due::{Due, Rust};
use crate::marks::{Mark, MARKS};
use crate::ours::Lines;
use crate::plain::Asked;
use crate::shared::rules::*;
use crate::shared::tables::*;
use std::collections::BTreeMap;

// Codes of the full check with what tells their kinds apart: the table of 1, the detail of 2.
const CODES: [(u64, u64); 25] = [
    (0, 0), (1, 0), (1, 1), (1, 2), (1, 3), (1, 4), (1, 5), (1, 6), (1, 7), (1, 8), (2, 0), (2, 1), (2, 2), (3, 0), (4, 0), (5, 0), (6, 0),
    (7, 0), (9, 0), (10, 0), (11, 0), (12, 0), (13, 0), (15, 0), (16, 0),
];
// Features with the codes they can give: a version above 13.2, an architecture.
const FEATURES: [(u64, u64); 25] = [
    (1, 9), (2, 9), (3, 9), (3, 10), (4, 9), (5, 9), (6, 9), (7, 9), (8, 9), (9, 9), (10, 9), (11, 9), (12, 10), (13, 10), (14, 9), (14, 10),
    (15, 9), (15, 10), (18, 9), (20, 9), (21, 9), (22, 9), (23, 9), (24, 9), (32, 9),
];

#[derive(Default)]
pub struct Cover {
    full: BTreeMap<(u64, u64), u64>,
    numbering: BTreeMap<u64, u64>,
    reasons: BTreeMap<(u32, u64), [u64; 2]>, // in the rules alone, in the full check
    passed: BTreeMap<u32, u64>,
    features: BTreeMap<(u64, u64), u64>,
    depths: BTreeMap<u64, u64>,
    forms: BTreeMap<(u64, u64), u64>, // type forms and kinds
    attributes: BTreeMap<(u64, u64), u64>,
    full_tables: [u64; 7], // accepted over tables with as many entries as a table takes
    marked: BTreeMap<Mark, [u64; 2]>, // set aside, and how often the Rust then said otherwise
}

fn numbers(said: &str) -> [u64; 3] {
    let mut fields = said.split('|').map(|f| f.parse().unwrap_or(0));
    std::array::from_fn(|_| fields.next().unwrap_or(0))
}

fn depth(x: &Tables, i: u64) -> u64 {
    let blocks = x.operands_of(OPERATIONS, i, 5).into_iter().flat_map(|k| x.operands_of(REGIONS, k, 0));
    let inside = |j: u64| x.operands_of(BLOCKS, j, 2).into_iter().map(|i| depth(x, i)).max().unwrap_or(0);
    blocks.map(|j| 1 + inside(j)).max().unwrap_or(0)
}

impl Cover {
    pub fn case(&mut self, asked: Option<&Asked>, ours: &Lines) {
        let said = |part: &str| ours.iter().find(|(p, _)| *p == part).map_or("", |(_, s)| s);
        let [code, id, detail] = numbers(said("full"));
        let kind = match code {
            1 => id,
            2 => detail,
            _ => 0,
        };
        *self.full.entry((code, kind)).or_default() += 1;
        *self.numbering.entry(numbers(said("num"))[0]).or_default() += 1;
        let Some(q) = asked else { return };
        if said("all").starts_with("ok") {
            (0..7).for_each(|k| self.full_tables[k] += (q.x.n[k] == SIZES[k]) as u64);
        }
        for (part, at) in [("ops", 0), ("full", 1)] {
            if let [code @ (11 | 12), i, reason] = numbers(said(part)) {
                let reason = if code == 12 { LEAVES } else { reason };
                self.reasons.entry((q.x.o[i as usize * 16], reason)).or_default()[at] += 1;
            }
        }
        if let [code @ (9 | 10), _, feature] = numbers(said("req")) {
            *self.features.entry((feature, code)).or_default() += 1;
        }
        if said("full").starts_with("ok") {
            self.accepted(&q.x);
        }
    }
    fn accepted(&mut self, x: &Tables) {
        let deepest = x.functions().into_iter().map(|f| depth(x, f)).max().unwrap_or(0);
        *self.depths.entry(deepest).or_default() += 1;
        for i in x.walk_order() {
            let o = &x.o[i as usize * 16..];
            *self.passed.entry(o[0]).or_default() += 1;
            for a in (o[7]..o[7] + o[8]).map(|k| &x.a[k as usize * 8..]) {
                *self.attributes.entry((a[1] as u64, a[0] as u64)).or_default() += 1;
            }
            let operands = x.operands_of(OPERATIONS, i, 3).into_iter().map(|v| x.v[v as usize * 4]);
            for t in operands.chain(x.operands_of(OPERATIONS, i, 1)) {
                let c = &x.t[t as usize * 16..];
                *self.forms.entry((c[0], if c[0] == 0 { 0 } else { c[1] })).or_default() += 1;
            }
        }
    }
    // A module that some parts of were not compared, and whether the Rust says otherwise there, where no other mark tells why.
    pub fn marked(&mut self, marks: &[Mark], ours: &Lines, due: &Due, rust: &Rust, q: &Asked) {
        for mark in marks {
            let parts = MARKS.iter().find(|(m, _)| m == mark).unwrap().1;
            let alone = |part: &str| !marks.iter().any(|m| m != mark && MARKS.iter().any(|(n, ps)| n == m && ps.contains(&part)));
            let other = |part: &str| {
                let mine = ours.iter().find(|(p, _)| *p == part).map_or("", |(_, s)| s);
                let said = if part == "ops" { rust.rules(q) } else { rust.said(part) };
                let silent = due.iter().any(|(p, d)| *p == part && d.is_none());
                silent && if part == "cap" { (mine == "ok") != (said == "ok") } else { mine != said }
            };
            let seen = self.marked.entry(mark).or_default();
            seen[0] += 1;
            seen[1] += (rust.skipped() || parts.iter().any(|part| alone(part) && other(part))) as u64;
        }
    }
    // The rows of the table: what, how often, and whether it has to occur.
    fn rows(&self, listed: &[String]) -> Vec<(String, u64, bool)> {
        fn of<K: Ord>(map: &BTreeMap<K, u64>, key: &K) -> u64 {
            map.get(key).copied().unwrap_or(0)
        }
        let mut rows: Vec<(String, u64, bool)> = vec![];
        let codes = CODES.iter().map(|k| (format!("full check: code {}, {}", k.0, k.1), of(&self.full, k), true));
        rows.extend(codes.chain([("full check: code 8, which cannot be".into(), of(&self.full, &(8, 0)), false)]));
        rows.extend([0, 6, 7, 8].map(|code| (format!("numbering alone: code {code}"), of(&self.numbering, &code), true)));
        rows.extend(self.reason_rows());
        rows.extend((0..105).map(|code| (format!("accepted: opcode {code}"), of(&self.passed, &code), true)));
        rows.extend(FEATURES.iter().map(|k| (format!("feature {}, code {}", k.0, k.1), of(&self.features, k), true)));
        rows.extend((0..=32).map(|d| (format!("accepted: depth {d}"), of(&self.depths, &d), true)));
        let kinds = (1..7).flat_map(|form| (0..16).map(move |kind| (form, kind))).chain([(0, 0)]);
        rows.extend(kinds.map(|k| {
            (format!("accepted: type form {}, kind {}", k.0, k.1), of(&self.forms, &k), k.0 < 2 || k.1 == 4)
        }));
        let names = (0..9).flat_map(|form| (0..14).map(move |name| (form, name)));
        rows.extend(names.map(|k| (format!("accepted: attribute form {}, name {}", k.0, k.1), of(&self.attributes, &k), k.1 == 0)));
        rows.extend((0..7).map(|k| (format!("accepted with {} entries in table {}", SIZES[k], k + 1), self.full_tables[k], k == 1 || k == 2)));
        for tag in listed {
            let [aside, otherwise] = self.marked.get(&tag[..]).copied().unwrap_or_default();
            rows.push((format!("set aside: {tag}"), aside, true));
            rows.push((format!("set aside: {tag}, and the Rust differs"), otherwise, true));
        }
        rows
    }
    fn reason_rows(&self) -> Vec<(String, u64, bool)> {
        let mut rows = vec![];
        for (k, (arm, opcodes)) in ARMS.iter().enumerate() {
            for code in *opcodes {
                for reason in reasons_of(k).into_iter().filter(|n| possible(*code, *n)) {
                    let [alone, full] = self.reasons.get(&(*code, reason)).copied().unwrap_or_default();
                    let what = if reason == LEAVES { "code 12".to_string() } else { format!("reason {reason}") };
                    rows.push((format!("{arm}: opcode {code}, {what}, alone"), alone, true));
                    rows.push((format!("{arm}: opcode {code}, {what}, full check"), full, false));
                }
            }
        }
        rows
    }
    // The table, and what is missing from it.
    pub fn table(&self, listed: &[String]) -> (String, Vec<String>) {
        let rows = self.rows(listed);
        let table = rows.iter().map(|(what, times, _)| format!("{what:52} {times}\n")).collect();
        (table, rows.into_iter().filter(|(_, times, wanted)| *wanted && *times == 0).map(|row| row.0).collect())
    }
}
