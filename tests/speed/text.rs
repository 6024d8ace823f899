// Module texts read by the bench and by the tests' plain reader, in one run, on the same bytes: 1 to 64 KiB, every kind of line.
#[path = "../rust/shared/mod.rs"]
mod shared;
#[path = "../rust/shared/reader.rs"]
mod reader;
mod timing;
use reader::{read_module, Module, MOST_ENTRIES};
use shared::{bench, cases::seeded, tables::*};
use std::hint::black_box;
use timing::times;

// A module of so many operations: a value each, an attribute for every other one, a block for every eight, a type for every sixteen.
fn module(operations: u64, r: &mut Random) -> String {
    let mut x = Tables::default();
    let some = 1 + operations / 16;
    for _ in 0..some {
        let dims: Vec<u64> = (0..r.below(4)).map(|_| 1 << r.below(10)).collect();
        x.typed(1 + r.below(6), r.below(16), &dims);
    }
    (0..operations).for_each(|i| x.value(r.below(some), (i % 4 > 0).then_some((i, 0))));
    for i in 0..operations {
        let first = x.n[ATTRIBUTES] as u32;
        if i % 2 == 0 {
            let name = 1 + r.below(13) as u32;
            match r.below(4) {
                0 => x.attribute(name, 0, &[r.below(100)], 0),
                1 => x.attribute(name, 2, &[r.below(100), r.below(100)], 0),
                2 => x.attribute(name, 5, &[1 << r.below(20), 0, 0], 6),
                _ => x.attribute(name, 8, &[], 0),
            }
        }
        let operands = [r.below(operations), r.below(operations)];
        x.operation(r.below(105) as u32, &[r.below(some)], &operands, &[], (first, (i + 1) as u32 % 2));
    }
    for at in (0..operations).step_by(8) {
        x.block(&[r.below(operations)], &(at..operations.min(at + 8)).collect::<Vec<u64>>());
    }
    (0..x.n[BLOCKS]).for_each(|j| x.region(&[j]));
    (0..some.min(64)).for_each(|i| x.function(i as u32));
    x.text(4, 120)
}

// The longest such text within so many bytes.
fn of_bytes(most: usize) -> String {
    let (mut low, mut high) = (1, SIZES[OPERATIONS]);
    while low + 1 < high {
        let middle = (low + high) / 2;
        if module(middle, &mut seeded(1)).len() <= most { low = middle } else { high = middle }
    }
    module(low, &mut seeded(1))
}

fn main() {
    let cells = |k: usize| SIZES[k] as usize * WIDTHS[k];
    let (mut t, mut v, mut l) = (vec![0; cells(TYPES)], vec![0; cells(VALUES)], vec![0; MOST_ENTRIES]);
    let [mut o, mut a, mut b, mut r, mut f] = [OPERATIONS, ATTRIBUTES, BLOCKS, REGIONS, FUNCTIONS].map(|k| vec![0; cells(k)]);
    let mut plain = Module::default();
    println!("module texts, read into tables:");
    for kib in [1, 4, 16, 64] {
        let text = of_bytes(kib * 1024);
        let n = text.len();
        let mut theirs = || read_module(black_box(text.as_bytes()), &mut plain).is_ok();
        let mut ours = || {
            let (mut header, mut counts, mut answer) = ([0; 2], [0; 7], [9; 3]);
            let text = black_box(text.as_bytes());
            bench::read_module(text, &mut t, &mut v, &mut o, &mut a, &mut b, &mut r, &mut f, &mut l, &mut header, &mut counts, &mut answer);
            answer == ACCEPTED
        };
        let [rust, bench] = times([&mut theirs, &mut ours]);
        println!(
            "reading {n:9} bytes   Rust {:9.2} us, {:5.2} ns a byte   bench {:9.2} us, {:5.2} ns a byte   Rust/bench {:6.2}",
            rust * 1e6, rust * 1e9 / n as f64, bench * 1e6, bench * 1e9 / n as f64, rust / bench
        );
    }
}
