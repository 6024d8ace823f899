// Random modules whose operands are mostly visible: their house texts for the running Rust, and what the bench answers of the same tables
// (code 5), through its static library. `dominance_cases SEED COUNT TEXTS ANSWERS` writes both; the Rust's lines `dom` are to be the same.
mod shared;
use shared::{bench, cases, tables::*, visible::draw_operands};

fn module(r: &mut Random) -> Tables {
    let mut x = random_module(r);
    let stray = r.one_of(&[10, 100, 1000, 100000]);
    draw_operands(&mut x, r, stray);
    x
}

fn main() {
    let draw = |r: &mut Random| {
        let x = cases::passing(r, module);
        (x.text(4, 100), x)
    };
    cases::write_cases(&cases::arguments(), draw, |x| cases::line("dom", bench::dominance(x)));
}
