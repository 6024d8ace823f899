// What is due of a case: the paper's own codes plainly read, and the Rust's lines composed as the paper says.
use crate::draw::{Case, Short};
use crate::marks::{silenced, Mark};
use crate::ours::{refusal, told};
use crate::plain::{Asked, Plain};
use crate::shared::sheet;
use crate::shared::tables::*;
use std::collections::HashMap;

// The Rust's lines of a module, by their part.
#[derive(Default, Clone)]
pub struct Rust(pub HashMap<String, String>);

impl Rust {
    // `own` tells which of two reasons with one message it was.
    pub fn of<'a>(lines: impl Iterator<Item = &'a str>) -> Rust {
        let mut parts = HashMap::new();
        for line in lines {
            let line = line.strip_prefix("own|").unwrap_or(line);
            let (part, said) = line.split_once('|').unwrap_or((line, ""));
            parts.insert(part.to_string(), said.to_string());
        }
        Rust(parts)
    }
    pub fn said(&self, part: &str) -> &str {
        self.0.get(part).map_or("nothing", |s| s)
    }
    pub fn skipped(&self) -> bool {
        self.0.contains_key("skip")
    }
    // Sheets other than the crate's are asked of a copy of the Rust that takes five answers from the sheet.
    pub fn rules(&self, asked: &Asked) -> &str {
        self.said(if sheet::has_the_crates_rules(&asked.sheet) { "ops" } else { "opx" })
    }
}

// The parts and what is due of each; None where docs/DIFFERENCES.md says that it is not compared.
pub type Due = Vec<(&'static str, Option<String>)>;

// The check that runs all, over tables.
fn over_tables(q: &Asked, rust: &Rust, short: Short, marks: &[Mark]) -> Option<String> {
    if !q.good_target() {
        return Some(refusal([16, 0, 0]));
    }
    if q.sheet_checks != ACCEPTED {
        return Some(refusal(q.sheet_checks));
    }
    if silenced(marks, "dom") {
        return None;
    }
    for part in ["dom", "num", "req"] {
        let said = rust.said(part);
        if !said.starts_with("ok") {
            return Some(said.into());
        }
    }
    if silenced(marks, "ops") {
        return None;
    }
    if rust.rules(q) != "ok" {
        return Some(rust.rules(q).into());
    }
    Some(q.room(short).2.map_or_else(|| rust.said("num").into(), refusal))
}

pub fn due(case: &Case, plain: &Plain, rust: &Rust, marks: &[Mark]) -> Due {
    let refused = (plain.read != ACCEPTED).then(|| refusal(plain.read));
    let Some(q) = &plain.asked else { return vec![("full", refused)] };
    let all = over_tables(q, rust, case.short, marks);
    let or_rust = |checks: Answer, part: &str, said: &str| match checks {
        ACCEPTED if !q.for_the_rust() => None,
        ACCEPTED => (!silenced(marks, part)).then(|| said.to_string()),
        refused => Some(told(refused)),
    };
    let first = |checks: Answer| if q.good_target() { checks } else { [16, 0, 0] };
    let cap = q.for_the_rust() && q.good_target() && !silenced(marks, "cap");
    vec![
        ("full", refused.or(all.clone().filter(|_| plain.read == ACCEPTED))),
        ("all", all),
        ("tables", Some(told(q.checks))),
        ("dom", or_rust(q.checks, "dom", rust.said("dom"))),
        ("num", or_rust(q.sheet_checks, "num", rust.said("num"))),
        ("cap", cap.then(|| if rust.said("cap") == "ok" { "ok" } else { "no" }.into())),
        ("req", or_rust(first(q.checks), "req", rust.said("req"))),
        ("ops", or_rust(first(q.sheet_checks), "ops", rust.rules(q))),
    ]
}
