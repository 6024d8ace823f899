// The running Rust: modules are written to a file, and its lines of each are read back.
use crate::draw::Case;
use crate::due::Rust;
use crate::plain::Plain;
use std::fs::{self, File};
use std::process::{Child, Command, Stdio};

// A run of the Rust that was begun; `asked` tells which of the cases it was given.
pub struct Begun {
    child: Child,
    file: String,
    asked: Vec<bool>,
}

pub fn begin(program: &str, cases: &[(Case, Plain)], name: &str) -> Begun {
    let file = format!("target/full/{name}");
    let asked: Vec<bool> = cases.iter().map(|(_, plain)| plain.asked.as_ref().is_some_and(|q| q.for_the_rust())).collect();
    let mut batch: Vec<u8> = vec![];
    for ((case, _), _) in cases.iter().zip(&asked).filter(|(_, asked)| **asked) {
        batch.extend(&case.sheet);
        batch.extend(&case.text);
        batch.extend(b"end\n");
    }
    fs::write(format!("{file}.texts"), batch).unwrap();
    let out = File::create(format!("{file}.lines")).unwrap();
    let words = ["--opx", "--cap", "--sheet", "target/oracle/crate.sheet", "--batch"];
    let mut command = Command::new(program);
    command.args(words).arg(format!("{file}.texts")).stdout(out).stderr(Stdio::null());
    Begun { child: command.spawn().unwrap(), file, asked }
}

impl Begun {
    // What the Rust said of each case, as it was printed; none of those that it was not asked of.
    pub fn lines(mut self) -> Vec<Option<String>> {
        assert!(self.child.wait().unwrap().success(), "the running Rust failed");
        let lines = fs::read_to_string(format!("{}.lines", self.file)).unwrap();
        let mut told = lines.split_inclusive("end\n").map(|s| s.trim_end_matches("end\n").to_string());
        let said: Vec<Option<String>> = self.asked.iter().map(|asked| asked.then(|| told.next().expect("a module without lines"))).collect();
        assert!(told.next().is_none(), "lines without a module");
        said
    }
}

pub fn parsed(lines: &Option<String>) -> Rust {
    lines.as_ref().map_or_else(Rust::default, |s| Rust::of(s.lines()))
}
