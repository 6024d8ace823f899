// Modules near the limits of the operation rules (codes 11 and 12): their house texts for the running Rust, and what the bench answers of
// the same tables. `rule_cases SEED COUNT TEXTS ANSWERS PART` writes both; where PART is `ops` the rule sheet is the crate's own, where it
// is `opx` each module has a random one. `rule_cases SEED COUNT cover LINES PART` reads the Rust's lines of the same modules, prints how
// often each reason was given to each opcode, and fails where one that can occur was not.
mod shared;
use shared::{bench, cases, rules::*, sheet, tables::*};

struct Case {
    x: Tables,
    version: u64,
    sm: u64,
    sheet: sheet::Sheet,
}

// One or a few operations that are reached, and some that are not.
fn draw(r: &mut Random, crates_own: bool) -> Case {
    let x = cases::passing(r, |r| {
        let walked = if r.once_in(3) { 3 + r.below(6) } else { 2 } as usize;
        let mut ops: Vec<Op> = (0..walked + r.below(2) as usize).map(|_| near_op(r)).collect();
        if !r.once_in(8) {
            ops[0] = Op { opcode: 22, ..Op::default() };
        }
        module_of(&ops, walked, r)
    });
    let (version, sm) = if crates_own && r.once_in(500) { (2 + r.below(4), 99 + r.below(2)) } else { target(r) };
    Case { x, version, sm, sheet: if crates_own { sheet::of_the_crate() } else { sheet::another(r) } }
}

impl Case {
    fn text(&self, crates_own: bool) -> String {
        let module = self.x.text(self.version, self.sm);
        if crates_own { module } else { sheet::text(&self.sheet) + &module }
    }
}

// What a line says of its module: the opcode and the reason, or each opcode that was reached and passed.
fn told(case: &Case, line: &str) -> Vec<(u32, Option<u64>)> {
    let x = &case.x;
    let field = |k: usize| line.split('|').nth(k).and_then(|f| f.parse::<u64>().ok());
    let code = |i: u64| x.o[i as usize * 16];
    match (field(1), field(2), field(3)) {
        (Some(11), Some(i), Some(reason)) => vec![(code(i), Some(reason))],
        (Some(12), Some(i), _) => vec![(code(i), Some(LEAVES))],
        (Some(16), ..) => vec![],
        _ if line.ends_with("|ok") => x.walk_order().into_iter().map(|i| (code(i), None)).collect(),
        _ => panic!("not a line of the Rust's: {line}"),
    }
}

fn cover(seed: u64, count: usize, lines: &str, crates_own: bool) -> bool {
    let mut r = cases::seeded(seed);
    let lines: Vec<String> = std::fs::read_to_string(lines).unwrap().lines().map(String::from).collect();
    assert_eq!(lines.len(), count, "a line for each module");
    let mut seen = std::collections::HashMap::new();
    for line in lines {
        told(&draw(&mut r, crates_own), &line).into_iter().for_each(|k| *seen.entry(k).or_insert(0u64) += 1);
    }
    let mut missing = 0;
    for (k, (arm, opcodes)) in ARMS.iter().enumerate() {
        for code in *opcodes {
            print!("{arm:16} {code:3}  ok {:<6}", seen.get(&(*code, None)).unwrap_or(&0));
            for reason in reasons_of(k) {
                let times = *seen.get(&(*code, Some(reason))).unwrap_or(&0);
                let name = if reason == LEAVES { "code 12".to_string() } else { reason.to_string() };
                match (possible(*code, reason), times) {
                    (false, 0) => {}
                    (true, 1..) => print!("  {name}: {times}"),
                    (can, _) => {
                        print!("  {name}: {times} {}", if can { "NOT REACHED" } else { "BUT CANNOT BE" });
                        missing += 1;
                    }
                }
            }
            if !seen.contains_key(&(*code, None)) {
                print!("  NEVER PASSED");
                missing += 1;
            }
            println!();
        }
    }
    missing == 0
}

fn main() {
    let arg = cases::arguments();
    let part = &arg[4];
    let crates_own = part == "ops";
    if arg[2] == "cover" {
        let reached = cover(arg[0].parse().unwrap(), arg[1].parse().unwrap(), &arg[3], crates_own);
        std::process::exit(!reached as i32);
    }
    let draw = |r: &mut Random| {
        let c = draw(r, crates_own);
        (c.text(crates_own), c)
    };
    cases::write_cases(&arg, draw, |c| cases::line(part, bench::rules(&c.x, c.version, c.sm, &c.sheet)));
}
