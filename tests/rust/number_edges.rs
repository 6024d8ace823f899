// How crates/number_edges/stdout was made: rustc -O number_edges.rs, and what the program prints. It shares nothing with crates/arith.
use std::collections::BTreeSet;
use std::convert::TryFrom;

fn yes(b: bool) -> &'static str {
    if b { "yes" } else { "no" }
}

// the signed range of b bits, from 1
fn range(b: u64) -> (i128, i128) {
    let half = 1i128 << (b.min(100) - 1);
    (-half, half - 1)
}

fn fits(b: u64, v: i64) -> bool {
    b != 0 && range(b).0 <= v as i128 && v as i128 <= range(b).1
}

fn product(dims: &[i64]) -> Option<i64> {
    dims.iter().try_fold(1i64, |p, d| p.checked_mul(*d))
}

fn or(n: Option<i64>, other: &str) -> String {
    n.map_or(other.to_string(), |v| v.to_string())
}

fn power(x: u64) {
    println!("power\t{x}\t{}", yes(x.is_power_of_two()));
}

fn main() {
    let two = |k: u32| 1u64 << k;
    for x in [0, 1, 2, 3, two(32) - 1, two(32), two(32) + 1, two(62), two(63) - 1, two(63), two(63) + 1, u64::MAX] {
        power(x);
        println!("signed\t{x}\t{}\t{}", x as i64, x as i64 as u64);
    }
    for k in 0..64 {
        power(two(k));
    }

    let mut ends = BTreeSet::new();
    for b in [1, 2, 4, 8, 16, 32, 63, 64] {
        let (least, greatest) = range(b);
        for v in [least - 1, least, -1, 0, greatest, greatest + 1] {
            if let Ok(v) = i64::try_from(v) {
                ends.insert(v);
            }
        }
    }
    for b in [0, 1, 2, 4, 8, 16, 32, 63, 64, 65, u64::MAX] {
        for v in &ends {
            println!("width\t{b}\t{v}\t{}", yes(fits(b, *v)));
        }
    }

    let numbers = [
        i64::MIN, i64::MIN + 1, -(1 << 32), -(1 << 31), -3, -2, -1, 0, 1, 2, 3, 1 << 31, 1 << 32, i64::MAX - 1, i64::MAX,
    ];
    for a in numbers {
        println!("bits\t{a}\t{}\t{}", a as u64, a as u64 as i64);
        for b in numbers {
            println!("times\t{a}\t{b}\t{}", or(a.checked_mul(b), "leaves"));
            println!("remainder\t{a}\t{b}\t{}", or((b > 0).then(|| a % b), "none"));
        }
    }

    let lists: [&[i64]; 6] =
        [&[1 << 31, 1 << 31], &[1 << 32, 1 << 31], &[1 << 62, 4, 0], &[0, 1 << 62, 4], &[], &[1; 8]];
    for dims in lists {
        let words: Vec<String> = dims.iter().map(|d| d.to_string()).collect();
        println!("product\t{}\t{}", words.join(","), or(product(dims), "leaves"));
    }
}
