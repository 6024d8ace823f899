// Case M and its neighbours through every function of the binding; the expected answers are the paper's.
use lavrindes::*;

const SHEET: &[u8] = b"sheet\t1\n";
const M: &str = "tile\t1\t4\t100
T\t1\t4\t0\t0\t-1\t
V\t0\t\t
V\t0\t\t
V\t0\t1\t0
V\t0\t3\t0
O\t22\t\t\t0
O\t3\t0\t0,1\t
O\t38\t\t2\t1
O\t3\t0\t2,0\t
O\t74\t\t2\t
B\t0,1\t1,2,4
B\t\t3
R\t0
R\t1
F\t0
";

fn m() -> Module {
    read_module(M.as_bytes()).expect("case M reads")
}

fn m_with(line: &str, other: &str) -> String {
    assert_eq!(M.matches(line).count(), 1, "{line} stands once in case M");
    M.replace(line, other)
}

#[test]
fn case_m_is_accepted_with_its_numbers() {
    let numbering = check_texts(SHEET, M.as_bytes()).unwrap();
    assert_eq!(numbering.lists, [[0, 1, 2, 2, 0, 2]]);
    assert_eq!(numbering.to_string(), "ok\nn\t0\t0,1,2,2,0,2");
    let x = m();
    assert_eq!(x.target, Target { version: 4, sm: 100 });
    assert_eq!(x.tables.counts, [1, 4, 5, 0, 2, 2, 1]);
    assert_eq!(check_all(x.target, &x.tables, &Sheet::default()), Ok(numbering.clone()));
    assert_eq!(check_numbering(&x.tables, &Sheet::default()), Ok(numbering));
    assert_eq!(check_tables(&x.tables), Ok(()));
    assert_eq!(check_dominance(&x.tables), Ok(()));
    assert_eq!(check_requirements(x.target, &x.tables), Ok(()));
    assert_eq!(check_rules(x.target, &x.tables, &Sheet::default()), Ok(()));
}

#[test]
fn case_m_reads_back_to_its_places() {
    let x = m().tables;
    let (argument, result) = (|position| Place::Argument { block: 0, position }, Place::Result { operation: 1, index: 0 });
    let places = vec![argument(0), argument(1), result, result, argument(0), result];
    assert_eq!(read_back(&x, &[0, 1, 2, 2, 0, 2]), Ok(places));
    assert_eq!(read_back(&x, &[0, 1, 2, 2, 0]), Err(Refusal::NotReadable { operation: 0, place: 0 }));
    // operation 1 has two operands, and two numbers are live there
    assert_eq!(read_back(&x, &[0, 2, 2, 2, 0, 2]), Err(Refusal::NotReadable { operation: 1, place: 2 }));
    assert_eq!(read_back(&x, &[0; 10_000]), Err(Refusal::NotReadable { operation: 0, place: 0 }));
}

#[test]
fn an_operand_that_is_not_visible_is_refused() {
    let text = m_with("O\t74\t\t2\t\n", "O\t74\t\t3\t\n");
    let refusal = check_texts(SHEET, text.as_bytes()).unwrap_err();
    assert_eq!(refusal, Refusal::NotVisible { operation: 4, operand: 0 });
    assert_eq!((refusal.code(), refusal.id(), refusal.detail()), (5, 4, 0));
    assert_eq!(refusal.line(), "no\t5\t4\t0");
    assert_eq!(refusal.to_string(), "code 5: operand 0 of operation 4 is not visible");
    let x = read_module(text.as_bytes()).unwrap();
    assert_eq!(check_dominance(&x.tables), Err(refusal));
    assert_eq!(check_all(x.target, &x.tables, &Sheet::default()), Err(refusal));
    assert_eq!(check_tables(&x.tables), Ok(()));
}

#[test]
fn each_part_alone_refuses_its_own() {
    let twice = read_module(m_with("B\t0,1\t", "B\t0,0\t").as_bytes()).unwrap().tables;
    assert_eq!(check_tables(&twice), Err(Refusal::DefinedTwice { value: 0 }));
    let x = m();
    let old = Target { version: 2, sm: 90 };
    assert_eq!(check_requirements(old, &x.tables), Err(Refusal::VersionLow { operation: 0, feature: 32 }));
    assert_eq!(check_requirements(Target { version: 9, sm: 100 }, &x.tables), Err(Refusal::NoTarget));
    let counted = read_sheet(b"sheet\t1\nc\t3\t2\n").unwrap();
    assert_eq!(check_numbering(&x.tables, &counted), Err(Refusal::ResultCount { operation: 1, count: 1 }));
    assert_eq!(check_rules(Target { version: 4, sm: 7 }, &x.tables, &counted), Err(Refusal::NoTarget));
}

#[test]
fn texts_that_are_not_in_form_are_refused() {
    assert_eq!(check_texts(b"", M.as_bytes()), Err(Refusal::NotInForm { line: 1, field: 100 }));
    assert_eq!(read_sheet(b""), Err(Refusal::NotInForm { line: 1, field: 0 }));
    assert_eq!(check_texts(SHEET, b""), Err(Refusal::NotInForm { line: 1, field: 0 }));
    assert_eq!(read_module(b"tile\t1\t4\tx\n"), Err(Refusal::NotInForm { line: 1, field: 4 }));
    assert_eq!(check_texts(SHEET, &[b'A'; 70_000]), Err(Refusal::OutOfRange { table: 0, entry: 0 }));
}

#[test]
fn functions_are_told_apart_from_what_is_not_written() {
    let none = check_texts(SHEET, b"tile\t1\t4\t100\n").unwrap();
    assert_eq!(none.lists, Vec::<Vec<u64>>::new());
    assert_eq!(none.to_string(), "ok");
    let two = "tile\t1\t4\t100\nO\t22\t\t\t\nO\t22\t\t\t\nF\t0\nF\t1\n";
    let numbering = check_texts(SHEET, two.as_bytes()).unwrap();
    assert_eq!(numbering.to_string(), "ok\nn\t0\t\nn\t1\t");
    assert_eq!(numbering.whole(), Vec::<u64>::new());
}

#[test]
fn tables_of_any_size_are_answered() {
    let counted = Tables { counts: [0, 0, 0, 0, 0, 0, 1], ..Tables::default() };
    assert_eq!(check_tables(&Tables::default()), Ok(()));
    assert_eq!(check_tables(&counted), Err(Refusal::OutOfRange { table: 7, entry: 0 }));
    let wild = Tables { l: vec![u64::MAX; 3], counts: [u64::MAX; 7], ..Tables::default() };
    assert_eq!(check_tables(&wild).unwrap_err().code(), 1);
    let short = Sheet { entries: vec![] };
    assert_eq!(check_all(Target { version: 4, sm: 100 }, &Tables::default(), &short), Err(Refusal::OutOfRange { table: 8, entry: 0 }));
}

#[test]
fn every_refusal_has_its_numbers() {
    for code in 1..=16 {
        let numbers = match code {
            3 | 4 | 12 => [code, 7, 0],
            13 => [code, 0, 9],
            16 => [code, 0, 0],
            _ => [code, 7, 9],
        };
        let refusal = Refusal::of(numbers).unwrap();
        assert_eq!(refusal.numbers(), numbers);
        assert!(refusal.to_string().starts_with(&format!("code {code}: ")));
    }
    assert_eq!(Refusal::of([0, 0, 0]), None);
    assert_eq!(Refusal::of([17, 0, 0]), None);
    assert_eq!(Refusal::of([16, 1, 0]), None);
}
