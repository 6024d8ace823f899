// The examples of docs/FORMAT.md, read through the static library: in a block `module`, `sheet` or `repeated` a line is an answer and a text,
// `|` a tab, `/` LF and `\e` nothing; `BEFORE*TIMES TEXT` repeats.
mod shared;
use shared::{bench, tables::*};

fn bytes_of(written: &str) -> Vec<u8> {
    written.replace("\\e", "").replace('|', "\t").replace('/', "\n").into_bytes()
}

fn repeated(written: &str) -> Vec<u8> {
    let (before, rest) = written.split_once('*').unwrap();
    let (times, text) = rest.split_once(' ').unwrap();
    [bytes_of(before), bytes_of(text).repeat(times.parse().unwrap())].concat()
}

fn module(text: &[u8]) -> Answer {
    let wide = |k: usize| vec![7u64; SIZES[k] as usize * WIDTHS[k]];
    let narrow = |k: usize| vec![7u32; SIZES[k] as usize * WIDTHS[k]];
    let (mut header, mut counts, mut answer) = ([7; 2], [7; 7], [99; 3]);
    bench::read_module(
        text, &mut wide(TYPES), &mut wide(VALUES), &mut narrow(OPERATIONS), &mut narrow(ATTRIBUTES), &mut narrow(BLOCKS),
        &mut narrow(REGIONS), &mut narrow(FUNCTIONS), &mut vec![7; 8192], &mut header, &mut counts, &mut answer,
    );
    answer
}

fn sheet(text: &[u8]) -> Answer {
    let mut answer = [99; 3];
    bench::read_sheet(text, &mut [7; 320], &mut answer);
    answer
}

fn main() {
    let (mut block, mut many, mut bad) = ("", [0; 3], 0);
    let page = std::fs::read_to_string("docs/FORMAT.md").unwrap();
    for line in page.lines() {
        if let Some(kind) = line.strip_prefix("```") {
            block = kind;
            continue;
        }
        let Some(kind) = ["module", "sheet", "repeated"].iter().position(|k| *k == block) else { continue };
        let (due, text) = line.split_once(' ').unwrap();
        let said = match block {
            "sheet" => sheet(&bytes_of(text)),
            "repeated" => module(&repeated(text)),
            _ => module(&bytes_of(text)),
        };
        let [code, id, detail] = said;
        let said = if said == ACCEPTED { "ok".into() } else { format!("no|{code}|{id}|{detail}") };
        if said != due {
            println!("docs/FORMAT.md says {due}, the bench {said}, of {text}");
            bad += 1;
        }
        many[kind] += 1;
    }
    if bad > 0 || many.contains(&0) {
        std::process::exit(1);
    }
    println!("{} examples", many.iter().sum::<usize>());
}
