// Reading back, on random modules, the largest among them: the places of what numbering wrote are the defining places of the operands, and
// lists of numbers that are wrong in one place or of another length, and damaged tables, are answered as a plain reading of the paper
// answers them. Prints the seed; `read_back_cases SEED [COUNT]` runs a seed again.
mod shared;
use shared::{bench, cases, damage::damage, entry::*, large::nested_module, sheet, tables::*, visible::draw_operands};

const HELD: u64 = 0x5eed;

// The paper's answer, and the places.
fn plainly(x: &Tables, numbers: &[u64]) -> Result<Vec<u64>, Answer> {
    match x.judge_nesting() {
        ACCEPTED => {}
        refused => return Err(refused),
    }
    let (mut places, mut bad, mut at) = (vec![], None, 0);
    entry_walks(x, |i, k, live| {
        match numbers.get(at).and_then(|n| live.get(*n as usize)) {
            Some(p) => places.extend(p),
            None => bad = bad.or(Some([14, i, k + 1])),
        }
        at += 1;
    });
    if at != numbers.len() { Err([14, 0, 0]) } else { bad.map_or(Ok(places), Err) }
}

// What the bench answers, with more room than is needed, just enough, and one entry too few.
fn asked(x: &Tables, numbers: &[u64]) -> Result<Vec<u64>, Answer> {
    let needed = numbers.len() * 3;
    let with = |n: usize| {
        let mut places = vec![HELD; n];
        let said = bench::read_back(x, numbers, &mut places);
        if said != ACCEPTED {
            assert!(places.iter().all(|p| *p == HELD), "a refusal wrote");
            return Err(said);
        }
        assert!(places[needed..].iter().all(|p| *p == HELD), "entries past the list were written");
        places.truncate(needed);
        Ok(places)
    };
    let said = with(needed + 5);
    assert!(with(needed) == said, "a list just as long as needed");
    if said.is_ok() && needed > 0 {
        assert!(with(needed - 1) == Err([13, 0, needed as u64]), "a list one entry too short");
    }
    said
}

fn module(r: &mut Random) -> Tables {
    if r.once_in(400) {
        return nested_module(2048, 32, r);
    }
    let mut x = random_module(r);
    let stray = r.one_of(&[10, 1000, 100000]);
    draw_operands(&mut x, r, stray);
    x
}

// A number one off, at the edge of what is live, or anything; or a list of another length.
fn spoil(x: &Tables, numbers: &mut Vec<u64>, r: &mut Random) {
    if r.once_in(6) {
        numbers.pop();
        (0..r.below(3)).for_each(|_| numbers.push(0));
        return;
    }
    let mut live_at = vec![];
    entry_walks(x, |_, _, live| live_at.push(live.len() as u64));
    if !live_at.is_empty() {
        let k = r.below(live_at.len() as u64) as usize;
        numbers.resize(live_at.len(), 0);
        let others = [live_at[k], live_at[k].wrapping_sub(1), live_at[k] + 1, numbers[k] + 1, 0, r.next(), u64::MAX];
        numbers[k] = r.one_of(&others);
    }
}

fn main() {
    let arg = cases::arguments();
    let seed = arg.first().map_or_else(|| std::time::SystemTime::UNIX_EPOCH.elapsed().unwrap().as_secs(), |s| s.parse().unwrap());
    let count = arg.get(1).map_or(20000, |n| n.parse().unwrap());
    let mut r = cases::seeded(seed);
    let sheet = sheet::empty();
    let (mut written, mut refused) = (0, [0u64; 15]);
    for _ in 0..count {
        let mut x = cases::passing(&mut r, module);
        let (mut numbers, mut lengths) = (vec![HELD; x.all_operands()], vec![HELD; x.n[FUNCTIONS] as usize]);
        if bench::numbering(&x, &sheet, &mut numbers, &mut lengths) == ACCEPTED {
            numbers.truncate(lengths.iter().sum::<u64>() as usize);
            let (of, mut places) = (defining_places(&x), vec![]);
            entry_walks(&x, |i, k, _| places.extend(of[x.operands_of(OPERATIONS, i, 3)[k as usize] as usize].unwrap()));
            assert!(asked(&x, &numbers) == Ok(places), "seed {seed}: not the defining places of\n{}", x.text(4, 100));
            written += 1;
        } else {
            numbers.clear();
        }
        (0..r.below(3)).for_each(|_| spoil(&x, &mut numbers, &mut r));
        if r.once_in(100) {
            x = nested_module(100, 32 + r.below(2), &mut r);
        }
        if r.once_in(4) {
            damage(&mut x, &mut r);
        }
        let (ours, theirs) = (plainly(&x, &numbers), asked(&x, &numbers));
        if ours != theirs {
            println!("seed {seed}: plainly {ours:?}, the bench {theirs:?}, of {:?} with {numbers:?}", x.n);
            std::process::exit(1);
        }
        if let Err([code, ..]) = ours {
            refused[code as usize] += 1;
        }
    }
    if count > 0 && written == 0 {
        println!("seed {seed}: no list was written and read back");
        std::process::exit(1);
    }
    for code in [1, 2, 3, 14] {
        if refused[code] == 0 {
            println!("seed {seed}: no case gave code {code}");
            std::process::exit(1);
        }
    }
    let [a, b, c, d] = [1, 2, 3, 14].map(|code: usize| refused[code]);
    println!("seed {seed}: {written} lists written and read back; spoilt ones: codes 1, 2, 3 and 14: {a} {b} {c} {d}");
}
