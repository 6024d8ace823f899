// Checks a module's text: prints `ok` and its number lists, or one `no` line and why on standard error.
//   cargo run --example check MODULE [SHEET]
use std::{env, fs, process::ExitCode};

fn main() -> ExitCode {
    let words: Vec<String> = env::args().skip(1).collect();
    if words.is_empty() || words.len() > 2 {
        eprintln!("check: name a module's text, and a rule sheet's if there is one");
        return ExitCode::from(2);
    }
    let mut texts = Vec::new();
    for name in &words {
        match fs::read(name) {
            Ok(text) => texts.push(text),
            Err(why) => {
                eprintln!("check: {name} cannot be read: {why}");
                return ExitCode::from(2);
            }
        }
    }
    let sheet = texts.get(1).map_or(&b"sheet\t1\n"[..], |text| text);
    match lavrindes::check_texts(sheet, &texts[0]) {
        Ok(numbering) => {
            println!("{numbering}");
            ExitCode::SUCCESS
        }
        Err(refusal) => {
            println!("{}", refusal.line());
            eprintln!("check: {refusal}");
            ExitCode::from(1)
        }
    }
}
