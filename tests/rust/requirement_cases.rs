// Random modules with random targets: their house texts for the running Rust, and what the bench answers of the same tables (codes 9 and
// 10), through its static library. `requirement_cases SEED COUNT TEXTS ANSWERS` writes both; the Rust's lines `req` are to be the same.
mod shared;
use shared::{bench, cases, tables::*};

// Types of every form, mostly of kinds that every target takes, so that later steps are reached too.
fn types(x: &mut Tables, r: &mut Random) {
    x.t.clear();
    let n = x.n[TYPES];
    x.n[TYPES] = 0;
    for _ in 0..n {
        let kind = if r.below(6) == 0 { r.below(16) } else { [0, 2, 4, 8][r.below(4) as usize] };
        let form = if r.below(4) == 0 { r.below(7) } else { 1 };
        let rank = 1 + r.below(2) as usize;
        x.typed(form, kind, &[4, 8][..rank]);
    }
}

// Opcodes, mostly old ones, and attributes.
fn operations(x: &mut Tables, r: &mut Random) {
    for i in 0..x.n[OPERATIONS] as usize {
        x.o[i * 16] = if r.below(30) == 0 { r.below(105) as u32 } else { r.below(93) as u32 };
        x.o[i * 16 + 7] = x.n[ATTRIBUTES] as u32;
        x.o[i * 16 + 8] = 0;
        while r.below(6) == 0 && x.n[ATTRIBUTES] < 4000 {
            let name = r.below(14) as u32;
            match r.below(4) {
                0 => x.attribute(name, 0, &[r.below(9)], 0),
                1 => x.attribute(name, 1, &[r.below(2)], 0),
                2 => {
                    let flags = [r.below(2), r.below(2)];
                    x.attribute(name, 3, &flags, 0)
                }
                _ => x.attribute(name, 2, &[7, 1], 0),
            }
            x.o[i * 16 + 8] += 1;
        }
    }
}

fn module(r: &mut Random) -> Tables {
    let mut x = random_module(r);
    types(&mut x, r);
    operations(&mut x, r);
    x
}

fn main() {
    let draw = |r: &mut Random| {
        let x = cases::passing(r, module);
        let (version, sm) = target(r);
        (x.text(version, sm), (x, version, sm))
    };
    let answer = |(x, version, sm): &(Tables, u64, u64)| cases::line("req", bench::requirements(x, *version, *sm));
    cases::write_cases(&cases::arguments(), draw, answer);
}
