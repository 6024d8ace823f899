// Tables filled by hand and at random, judged twice: by the bench, through its static library, and by a plain reading of the paper's
// codes 1 to 4 written here, which shares nothing with the crates. Prints the seed; `table_cases SEED` runs a seed again.
mod shared;
use shared::{bench, damage::damage, tables::*};
use std::collections::HashMap;

// Case M of the paper, with an attribute of each form.
fn case_m() -> Tables {
    let mut x = Tables::default();
    x.typed(1, 4, &[]);
    x.typed(4, 8, &[2, 4]);
    x.typed(0, 0, &[]);
    x.value(0, None);
    x.value(0, None);
    x.value(0, Some((1, 0)));
    x.value(0, Some((3, 0)));
    x.attribute(1, 0, &[7], 0);
    x.attribute(2, 1, &[1], 0);
    x.attribute(0, 2, &[5, 6], 0);
    x.attribute(3, 3, &[0, 1], 0);
    x.attribute(6, 4, &[1, 0], 0);
    x.attribute(0, 5, &[8, 0, 0], 6);
    x.attribute(0, 6, &[1], 0);
    x.attribute(0, 7, &[1, 2], 1);
    x.attribute(0, 8, &[], 0);
    x.operation(22, &[], &[], &[0], (0, 0));
    x.operation(3, &[0], &[0, 1], &[], (0, 5));
    x.operation(38, &[], &[2], &[1], (5, 0));
    x.operation(3, &[0], &[2, 0], &[], (5, 4));
    x.operation(74, &[], &[2], &[], (9, 0));
    x.block(&[0, 1], &[1, 2, 4]);
    x.block(&[], &[3]);
    x.region(&[0]);
    x.region(&[1]);
    x.function(0);
    x
}

// Operations nested in each other, each with one block, `depth` blocks deep; ids run backwards where `down`.
fn nested(depth: u64, down: bool) -> Tables {
    let mut x = Tables::default();
    let id = |i: u64, n: u64| if down { n - 1 - i } else { i };
    let mut order: Vec<u64> = (0..=depth).collect();
    order.sort_by_key(|i| id(*i, depth + 1));
    for i in order {
        let regions = if i < depth { vec![id(i, depth)] } else { vec![] };
        x.operation(10, &[], &[], &regions, (0, 0));
    }
    let mut rows: Vec<u64> = (0..depth).collect();
    rows.sort_by_key(|i| id(*i, depth));
    for i in &rows {
        x.block(&[], &[id(i + 1, depth + 1)]);
    }
    for i in &rows {
        x.region(&[id(*i, depth)]);
    }
    x.function(id(0, depth + 1) as u32);
    x
}

// One fault: a cell, a count or the length of a slice.
#[derive(Clone, Copy)]
enum Fault {
    Cell(usize, usize, u64), // slice, place, number
    Count(usize, u64),
    Cut(usize, usize),
}

impl Tables {
    fn slice_len(&self, slice: usize) -> usize {
        if slice == 7 { self.l.len() } else { self.cells(slice) }
    }
    fn with(&self, fault: Fault) -> Tables {
        let mut x = self.clone();
        match fault {
            Fault::Cell(0, k, v) => x.t[k] = v,
            Fault::Cell(1, k, v) => x.v[k] = v,
            Fault::Cell(2, k, v) => x.o[k] = v as u32,
            Fault::Cell(3, k, v) => x.a[k] = v as u32,
            Fault::Cell(4, k, v) => x.b[k] = v as u32,
            Fault::Cell(5, k, v) => x.r[k] = v as u32,
            Fault::Cell(6, k, v) => x.f[k] = v as u32,
            Fault::Cell(_, k, v) => x.l[k] = v,
            Fault::Count(table, v) => x.n[table] = v,
            Fault::Cut(0, n) => x.t.truncate(n),
            Fault::Cut(1, n) => x.v.truncate(n),
            Fault::Cut(2, n) => x.o.truncate(n),
            Fault::Cut(3, n) => x.a.truncate(n),
            Fault::Cut(4, n) => x.b.truncate(n),
            Fault::Cut(5, n) => x.r.truncate(n),
            Fault::Cut(6, n) => x.f.truncate(n),
            Fault::Cut(_, n) => x.l.truncate(n),
        }
        x
    }
}

// Every cell of case M set to every telling number, every slice cut everywhere, every count: each fault of each clause occurs.
fn single_faults(m: &Tables) -> Vec<Fault> {
    let telling = |n: u64| {
        [0, 1, 2, 3, 4, 5, 6, 7, 8, 9, 13, 14, 15, 16, 104, 105, n, n + 1, (1 << 31) - 1, 1 << 31, u32::MAX as u64, 1 << 32, u64::MAX,
            u64::MAX - (1 << 31), u64::MAX - (1 << 31) + 1, 1 << 63]
    };
    let mut all = vec![];
    for slice in 0..8 {
        for k in 0..m.slice_len(slice) {
            telling(8192).iter().for_each(|v| all.push(Fault::Cell(slice, k, *v)));
            all.push(Fault::Cut(slice, k));
        }
    }
    (0..7).for_each(|table| telling(SIZES[table]).iter().for_each(|v| all.push(Fault::Count(table, *v))));
    all
}

// Sizes: each table full, and one past; the list entries at 8,192 and one past; depth 32 and 33; a cycle that no function reaches.
fn edges() -> Vec<Tables> {
    let mut all = vec![];
    for table in 0..7 {
        for extra in 0..2 {
            let mut x = Tables::default();
            x.typed(1, 4, &[]);
            x.value(0, None);
            for _ in x.n[table]..SIZES[table] + extra {
                match table {
                    TYPES => x.typed(1, 4, &[]),
                    VALUES => x.value(0, None),
                    OPERATIONS => x.operation(0, &[], &[], &[], (0, 0)),
                    ATTRIBUTES => x.attribute(0, 8, &[], 0),
                    BLOCKS => x.block(&[], &[]),
                    REGIONS => x.region(&[]),
                    _ => {
                        x.operation(0, &[], &[], &[], (0, 0));
                        x.function(x.n[OPERATIONS] as u32 - 1);
                    }
                }
            }
            all.push(x);
        }
    }
    for entries in [8191, 8192, 8193] {
        let mut x = Tables::default();
        x.typed(1, 4, &[]);
        x.value(0, None);
        x.operation(0, &[0; 4000], &[], &[], (0, 0));
        x.attribute(0, 2, &vec![7; entries - 4001], 0);
        x.block(&[], &[0]);
        all.push(x.clone());
        // the same lists, shared: lengths count, not places
        x.a[2] = 0;
        x.l.truncate(4100);
        all.push(x);
    }
    for depth in [1, 31, 32, 33, 40] {
        all.push(nested(depth, false));
        all.push(nested(depth, true));
    }
    let mut cycle = nested(3, false);
    cycle.n[FUNCTIONS] = 0;
    cycle.l[cycle.b[10] as usize] = 0; // the innermost block holds the outermost operation
    all.push(cycle.clone());
    cycle.n[FUNCTIONS] = 1;
    all.push(cycle);
    let mut region_deep = nested(32, false);
    region_deep.operation(0, &[], &[], &[], (0, 0));
    let k = region_deep.n[REGIONS];
    region_deep.region(&[]);
    let (s, n) = region_deep.list_of(&[k]);
    region_deep.o[32 * 16 + 5] = s;
    region_deep.o[32 * 16 + 6] = n;
    all.push(region_deep); // a region without blocks at depth 33 opens nothing
    all
}

fn main() {
    let seed = std::env::args().nth(1).map_or_else(
        || std::time::SystemTime::now().duration_since(std::time::UNIX_EPOCH).unwrap().as_nanos() as u64,
        |s| s.parse().unwrap(),
    );
    let many: usize = std::env::args().nth(2).map_or(20000, |s| s.parse().unwrap());
    let mut r = Random(seed | 1);
    let mut codes = [0usize; 17];
    let mut ones = [0usize; 8];
    let mut judge = |x: &Tables, what: &str| {
        let (ours, theirs) = (x.judge(), bench::tables(x));
        if ours != theirs {
            println!("{what}: the paper {ours:?}, the bench {theirs:?}, counts {:?}, seed {seed}", x.n);
            std::process::exit(1);
        }
        codes[ours[0] as usize] += 1;
        if ours[0] == 1 {
            ones[ours[1] as usize] += 1;
        }
    };
    assert_eq!(case_m().judge(), ACCEPTED);
    let m = case_m();
    let singles = single_faults(&m);
    let mut kinds: HashMap<(usize, Answer), Fault> = HashMap::new();
    for fault in &singles {
        let x = m.with(*fault);
        judge(&x, "one fault");
        let slice = match fault {
            Fault::Cell(s, ..) | Fault::Cut(s, _) | Fault::Count(s, _) => *s,
        };
        kinds.entry((slice, x.judge())).or_insert(*fault);
    }
    // one fault of each kind, in pairs: which of two answers comes first
    let faults: Vec<Fault> = kinds.values().copied().collect();
    for a in &faults {
        for b in &faults {
            let x = m.with(*a);
            let safe = match b {
                Fault::Cell(s, k, _) => *k < x.slice_len(*s),
                _ => true,
            };
            if safe {
                judge(&x.with(*b), "two faults");
            }
        }
    }
    edges().iter().for_each(|x| judge(x, "an edge"));
    for _ in 0..many {
        let mut x = match r.below(8) {
            0 | 1 => case_m(),
            2 => nested(28 + r.below(8), r.below(2) == 0),
            _ => random_module(&mut r),
        };
        for _ in 0..r.below(4) {
            damage(&mut x, &mut r);
        }
        judge(&x, "random");
    }
    for (what, n) in [("accepted", codes[0]), ("code 1", codes[1]), ("code 2", codes[2]), ("code 3", codes[3]), ("code 4", codes[4])] {
        if n == 0 {
            println!("no case gave {what}, seed {seed}");
            std::process::exit(1);
        }
    }
    if let Some(table) = (1..8).find(|t| ones[*t] == 0) {
        println!("no case gave code 1 for table {table}, seed {seed}");
        std::process::exit(1);
    }
    println!("seed {seed}: {} kinds of fault in pairs; accepted {}, codes 1 to 4: {} {} {} {}", faults.len(), codes[0], codes[1], codes[2], codes[3], codes[4]);
}
