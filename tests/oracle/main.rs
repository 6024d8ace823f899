// Random modules through the full check and each part alone, against the running Rust. Verdict, first refusal and numbers are compared.
//   run SEED COUNT RUST       compares COUNT modules with the running Rust, the program RUST; where they differ the module is cut down and shown
//   record COUNT RUST FILE    writes what the running Rust says of COUNT modules of seed 1
//   replay FILE               compares the modules of seed 1 with what was recorded
//   answers SEED COUNT        prints what the bench answers
//   broken SEED COUNT RUST    compares with one number changed in the bench's answers: the comparison and the cutting down must notice
#[path = "../rust/shared/mod.rs"]
mod shared;
#[path = "../rust/shared/reader.rs"]
mod reader;
mod cover;
mod draw;
mod due;
mod faults;
mod marks;
mod model;
mod ours;
mod plain;
mod rust;
mod shrink;
use cover::Cover;
use draw::{draw, Case, Short};
use due::due;
use marks::{marks, Mark, MARKS};
use ours::{answers, Lines};
use plain::Plain;
use shared::cases::{arguments, seeded};
use shared::tables::Random;

// How many modules are handed to the Rust at once.
const AT_ONCE: usize = 2500;
// From so many modules on everything that can occur is expected to.
const ENOUGH: usize = 50_000;

type Break = fn(&mut Lines);

struct Compared {
    part: &'static str,
    ours: String,
    due: String,
}

fn drawn(r: &mut Random, many: usize) -> Vec<(Case, Plain)> {
    let one = |r: &mut Random| {
        let case = draw(r);
        let plain = Plain::of(&case);
        (case, plain)
    };
    (0..many).map(|_| one(r)).collect()
}

fn marks_of(plain: &Plain) -> Vec<Mark> {
    plain.asked.as_ref().map_or(vec![], marks)
}

// The first part in which a case differs from what is due.
fn compared(case: &Case, plain: &Plain, ours: &Lines, said: &Option<String>) -> Option<Compared> {
    let due = due(case, plain, &rust::parsed(said), &marks_of(plain));
    assert!(ours.iter().map(|o| o.0).eq(due.iter().map(|d| d.0)), "the parts");
    let bad = ours.iter().zip(due).find(|((_, ours), (_, due))| due.as_ref().is_some_and(|d| d != ours));
    bad.map(|((part, ours), (_, due))| Compared { part, ours: ours.clone(), due: due.unwrap() })
}

fn asked_of_rust(program: &str, cases: &[(Case, Plain)], broken: Break) -> Vec<Option<Compared>> {
    let begun = rust::begin(program, cases, "shrink");
    let ours: Vec<Lines> = cases.iter().map(|(case, plain)| with(answers(case, plain), broken)).collect();
    let said = begun.lines();
    cases.iter().zip(ours).zip(said).map(|(((case, plain), ours), said)| compared(case, plain, &ours, &said)).collect()
}

fn with(mut lines: Lines, broken: Break) -> Lines {
    broken(&mut lines);
    lines
}

// A case that differs, cut down as far as the same part differs, as a message.
fn shown(program: &str, case: Case, part: &'static str, broken: Break) -> (String, usize) {
    let differs = |cases: &[(Case, Plain)]| -> Vec<bool> {
        asked_of_rust(program, cases, broken).iter().map(|c| c.as_ref().is_some_and(|c| c.part == part)).collect()
    };
    let case = shrink::shrink(case, differs);
    let plain = Plain::of(&case);
    let text = String::from_utf8_lossy(&case.text).replace('\t', "|");
    let sheet = String::from_utf8_lossy(&case.sheet).replace('\t', "|");
    let lent = if case.short == Short::None { String::new() } else { format!("lent too short: {:?}\n", case.short) };
    let last = asked_of_rust(program, &[(case, plain)], broken).pop().flatten();
    let told = last.map_or(String::new(), |c| format!("{}: the bench {}, due {}\n", c.part, c.ours, c.due));
    (format!("{told}{lent}{text}with the sheet\n{sheet}"), text.lines().count())
}

// The tags that docs/DIFFERENCES.md lists as not compared.
fn listed() -> Vec<String> {
    let text = std::fs::read_to_string("docs/DIFFERENCES.md").unwrap();
    let rows = text.lines().skip_while(|l| !l.starts_with("| Tag ")).skip(2).take_while(|l| l.starts_with("| `"));
    rows.map(|l| l.split('`').nth(1).unwrap().to_string()).collect()
}

fn fail(said: String) -> ! {
    println!("{said}");
    std::process::exit(1);
}

fn run(seed: u64, count: usize, program: &str, broken: Break) -> Result<Cover, (String, usize)> {
    let mut r = seeded(seed);
    let mut cover = Cover::default();
    let mut done = 0;
    while done < count {
        let cases = drawn(&mut r, AT_ONCE.min(count - done));
        let begun = rust::begin(program, &cases, "batch");
        let ours: Vec<Lines> = cases.iter().map(|(case, plain)| with(answers(case, plain), broken)).collect();
        for (((case, plain), ours), said) in cases.into_iter().zip(&ours).zip(begun.lines()) {
            if let Some(c) = compared(&case, &plain, ours, &said) {
                let (told, lines) = shown(program, case, c.part, broken);
                return Err((format!("seed {seed}, module {done}: {}: the bench {}, due {}; cut down:\n{told}", c.part, c.ours, c.due), lines));
            }
            cover.case(plain.asked.as_ref(), ours);
            if let Some(q) = &plain.asked {
                let (marks, rust) = (marks(q), rust::parsed(&said));
                let two = marks.contains(&"two-pointer-attributes") && !rust.skipped();
                assert_eq!(rust.0.contains_key("note"), two, "seed {seed}: what the Rust notes of pointer attributes");
                cover.marked(&marks, ours, &due(&case, &plain, &rust, &marks), &rust, q);
            }
            done += 1;
        }
    }
    Ok(cover)
}

fn tested(seed: u64, count: usize, program: &str) {
    let mut ours: Vec<&str> = MARKS.iter().map(|(tag, _)| *tag).collect();
    let mut listed = listed();
    ours.sort();
    listed.sort();
    if ours != listed {
        fail(format!("docs/DIFFERENCES.md lists {listed:?} as not compared, the test sets aside {ours:?}"));
    }
    let cover = run(seed, count, program, |_| {}).unwrap_or_else(|(said, _)| fail(said));
    let (table, missing) = cover.table(&listed);
    std::fs::write("target/full/coverage.txt", table).unwrap();
    if count >= ENOUGH && !missing.is_empty() {
        fail(format!("seed {seed}: not reached: {}", missing.join("; ")));
    }
    println!("seed {seed}: {count} modules{}", if missing.is_empty() { ", and all that can occur did" } else { "" });
}

// One number changed in each list of two or more: the comparison must notice, and what is left must be small.
fn broken(seed: u64, count: usize, program: &str) {
    let change: Break = |lines| {
        let lists = lines.iter_mut().filter(|(part, said)| *part == "full" && said.starts_with("ok|") && said.contains(','));
        lists.for_each(|(_, said)| said.push('0'));
    };
    match run(seed, count, program, change) {
        Ok(_) => fail(format!("seed {seed}: a changed number was not noticed in {count} modules")),
        Err((said, lines)) if lines > 20 => fail(format!("a module of {lines} lines is not cut down:\n{said}")),
        Err((_, lines)) => println!("a changed number is noticed, and its module cut down to {lines} lines"),
    }
}

// What is kept of the Rust's lines: of its own walk the verdict, and no wording.
fn joined(lines: &Option<String>) -> String {
    let kept = |line: &str| match (line.starts_with("cap|no"), line.find("|panic")) {
        (true, _) => "cap|no".to_string(),
        (_, Some(at)) => line[..at + 6].to_string(),
        _ => line.to_string(),
    };
    lines.as_ref().map_or("not asked".into(), |s| s.lines().map(kept).collect::<Vec<_>>().join(" "))
}

fn record(count: usize, program: &str, file: &str) {
    let cases = drawn(&mut seeded(1), count);
    let said = rust::begin(program, &cases, "record").lines();
    std::fs::write(file, said.iter().map(|s| joined(s) + "\n").collect::<String>()).unwrap();
}

fn replay(file: &str) {
    let recorded = std::fs::read_to_string(file).unwrap();
    let mut r = seeded(1);
    for (k, line) in recorded.lines().enumerate() {
        let case = draw(&mut r);
        let plain = Plain::of(&case);
        let said = (line != "not asked").then(|| line.replace(' ', "\n"));
        if let Some(c) = compared(&case, &plain, &answers(&case, &plain), &said) {
            fail(format!("recorded module {k}: {}: the bench {}, due {}", c.part, c.ours, c.due));
        }
    }
    println!("{} recorded", recorded.lines().count());
}

fn main() {
    let arg = arguments();
    let number = |k: usize| arg[k].parse::<u64>().unwrap();
    std::fs::create_dir_all("target/full").unwrap();
    match arg[0].as_str() {
        "run" => tested(number(1), number(2) as usize, &arg[3]),
        "broken" => broken(number(1), number(2) as usize, &arg[3]),
        "record" => record(number(1) as usize, &arg[2], &arg[3]),
        "replay" => replay(&arg[1]),
        _ => {
            for (case, plain) in drawn(&mut seeded(number(1)), number(2) as usize) {
                let lines = answers(&case, &plain);
                println!("{}", lines.iter().map(|(part, said)| format!("{part}|{said}")).collect::<Vec<_>>().join(" "));
            }
        }
    }
}
