// What the bench answers of a case, a line a part, as the Rust's lines are written.
use crate::draw::{Case, Short};
use crate::plain::{full_size, Asked, Plain};
use crate::reader::SHEET_CELLS;
use crate::shared::bench;
use crate::shared::sheet;
use crate::shared::tables::*;
use std::cell::RefCell;

pub type Lines = Vec<(&'static str, String)>;

const HELD: u64 = 0x5eed;

pub fn refusal([code, id, detail]: Answer) -> String {
    format!("{code}|{id}|{detail}")
}

pub fn told(answer: Answer) -> String {
    if answer == ACCEPTED { "ok".into() } else { refusal(answer) }
}

// The numbers of each function, or the refusal, which writes nothing; entries past the list keep what they held.
fn listing(answer: Answer, numbers: &[u64], lengths: &[u64], functions: usize) -> String {
    let held = |xs: &[u64]| xs.iter().all(|n| *n == HELD);
    if answer != ACCEPTED {
        return if held(numbers) && held(lengths) { refusal(answer) } else { format!("{} and wrote", refusal(answer)) };
    }
    if lengths.len() < functions || !held(&lengths[functions..]) {
        return "lengths past the functions".into();
    }
    let mut rest = numbers;
    let mut line = format!("ok|{functions}");
    for n in &lengths[..functions] {
        let Some((now, later)) = rest.split_at_checked(*n as usize) else { return "a length past the numbers".into() };
        line += "|";
        line += &now.iter().map(u64::to_string).collect::<Vec<_>>().join(",");
        rest = later;
    }
    if held(rest) { line } else { "numbers past the list".into() }
}

// The eight tables that a text is read into, kept from case to case.
struct Lent {
    wide: [Vec<u64>; 3],   // T, V, the list entries
    narrow: [Vec<u32>; 5], // O, A, B, R, F
}

thread_local! {
    static LENT: RefCell<Lent> = RefCell::new(Lent {
        wide: [0, 1, 7].map(|k| vec![0; full_size(k).0 as usize * full_size(k).1]),
        narrow: [2, 3, 4, 5, 6].map(|k| vec![0; full_size(k).0 as usize * full_size(k).1]),
    });
}

fn over_texts(case: &Case, numbers: &mut [u64], lengths: &mut [u64]) -> Answer {
    let mut answer = [99; 3];
    let mut sheet = vec![7; SHEET_CELLS - (case.short == Short::Sheet) as usize];
    let less = |k: usize| (case.short == Short::Table(k)) as usize;
    LENT.with_borrow_mut(|lent| {
        let [t, v, l] = &mut lent.wide;
        let [o, a, b, r, f] = &mut lent.narrow;
        fn but<T>(xs: &mut [T], less: usize) -> &mut [T] {
            let n = xs.len() - less;
            &mut xs[..n]
        }
        bench::check_texts(
            &case.sheet, &case.text, but(t, less(0)), but(v, less(1)), but(o, less(2)), but(a, less(3)), but(b, less(4)), but(r, less(5)),
            but(f, less(6)), but(l, less(7)), &mut sheet, numbers, lengths, &mut answer,
        );
    });
    answer
}

fn with_room(asked: &Asked, short: Short, check: impl Fn(&mut [u64], &mut [u64]) -> Answer) -> String {
    let (n, m, _) = asked.room(short);
    let (mut numbers, mut lengths) = (vec![HELD; n], vec![HELD; m]);
    let answer = check(&mut numbers, &mut lengths);
    listing(answer, &numbers, &lengths, asked.x.n[FUNCTIONS] as usize)
}

pub fn answers(case: &Case, plain: &Plain) -> Lines {
    let Some(q) = &plain.asked else {
        let (mut numbers, mut lengths) = ([HELD; 8], [HELD; 8]);
        let answer = over_texts(case, &mut numbers, &mut lengths);
        return vec![("full", listing(answer, &numbers, &lengths, 0))];
    };
    let x = &q.x;
    let req = told(bench::requirements(x, q.version, q.sm));
    let ops = told(bench::rules(x, q.version, q.sm, &q.sheet));
    // The Rust's own walk asks both at once, by the crate's own rules.
    let crates = if sheet::has_the_crates_rules(&q.sheet) { ops.clone() } else { told(bench::rules(x, q.version, q.sm, &sheet::of_the_crate())) };
    vec![
        ("full", with_room(q, case.short, |numbers, lengths| over_texts(case, numbers, lengths))),
        ("all", with_room(q, case.short, |numbers, lengths| bench::all(x, q.version, q.sm, &q.sheet, numbers, lengths))),
        ("tables", told(bench::tables(x))),
        ("dom", told(bench::dominance(x))),
        ("num", with_room(q, Short::None, |numbers, lengths| bench::numbering(x, &q.sheet, numbers, lengths))),
        ("cap", if req == "ok" && crates == "ok" { "ok" } else { "no" }.into()),
        ("req", req),
        ("ops", ops),
    ]
}
