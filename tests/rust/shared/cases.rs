// Cases for the running Rust: house texts, and what the bench answers of the same modules, a line each.
use super::tables::*;

// The seed and the count of modules that a command line asks for.
pub fn asked(arg: &[String]) -> (Random, usize) {
    (seeded(arg[0].parse().unwrap()), arg[1].parse().unwrap())
}

pub fn seeded(seed: u64) -> Random {
    Random(seed.wrapping_mul(0x9e3779b97f4a7c15) | 1)
}

// One line as the Rust's are written: the part, and `ok` or the refusal.
pub fn line(part: &str, answer: Answer) -> String {
    match answer {
        ACCEPTED => format!("{part}|ok\n"),
        [code, id, detail] => format!("{part}|{code}|{id}|{detail}\n"),
    }
}

// A drawn module that passes codes 1 to 4, as the Rust takes it.
pub fn passing(r: &mut Random, make: impl Fn(&mut Random) -> Tables) -> Tables {
    loop {
        let x = make(r);
        if x.judge() == ACCEPTED {
            return x;
        }
    }
}

// `SEED COUNT TEXTS ANSWERS`: writes the texts of COUNT cases, and the answer to each; where ANSWERS is `-` nothing is asked.
pub fn write_cases<C>(arg: &[String], draw: impl Fn(&mut Random) -> (String, C), answer: impl Fn(&C) -> String) {
    let (mut r, count) = asked(arg);
    let (texts, drawn): (Vec<String>, Vec<C>) = (0..count).map(|_| draw(&mut r)).unzip();
    std::fs::write(&arg[2], texts.join("end\n")).unwrap();
    if arg[3] != "-" {
        std::fs::write(&arg[3], drawn.iter().map(answer).collect::<String>()).unwrap();
    }
}

pub fn arguments() -> Vec<String> {
    std::env::args().skip(1).collect()
}
