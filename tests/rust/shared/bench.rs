// The bench's functions as its static library exports them: a slice is handed over as its address and length. A function that is not
// called need not be there. The library that is linked is code for this processor; where BENCH_SERVED is set the calls go through a pipe
// to the x86-64 code that is shipped (served.rs).
use super::served::Call;
use super::tables::{Answer, Tables};

macro_rules! exported {
    ($($name:ident is $symbol:ident($($number:ident),*; $($read:ident: $r:ty),*; $($written:ident: $w:ty),*);)*) => {
        mod c {
            extern "C" {
                $(pub fn $symbol($($number: u64,)* $($read: *const $r, _: usize,)* $($written: *mut $w, _: usize),*);)*
            }
        }
        $(
            pub fn $name($($number: u64,)* $($read: &[$r],)* $($written: &mut [$w]),*) {
                let Some(mut call) = Call::where_served() else {
                    return unsafe { c::$symbol($($number,)* $($read.as_ptr(), $read.len(),)* $($written.as_mut_ptr(), $written.len()),*) };
                };
                $(call.number($number);)*
                $(call.slice($read);)*
                $(call.slice($written);)*
                call.make(stringify!($symbol));
                $(call.read($read);)*
                $(call.written($written);)*
            }
        )*
    };
}

exported! {
    check_tables is lavrindes_check_tables(; t: u64, v: u64, o: u32, a: u32, b: u32, r: u32, f: u32, l: u64, n: u64; answer: u64);
    check_dominance is lavrindes_check_dominance(; t: u64, v: u64, o: u32, a: u32, b: u32, r: u32, f: u32, l: u64, n: u64; answer: u64);
    check_requirements is lavrindes_check_requirements(
        version, sm; t: u64, v: u64, o: u32, a: u32, b: u32, r: u32, f: u32, l: u64, n: u64; answer: u64);
    check_rules is lavrindes_check_rules(
        version, sm; t: u64, v: u64, o: u32, a: u32, b: u32, r: u32, f: u32, l: u64, n: u64, sheet: u64; answer: u64);
    check_numbering is lavrindes_check_numbering(
        ; t: u64, v: u64, o: u32, a: u32, b: u32, r: u32, f: u32, l: u64, n: u64, sheet: u64; numbers: u64, lengths: u64, answer: u64);
    check_all is lavrindes_check_all(
        version, sm; t: u64, v: u64, o: u32, a: u32, b: u32, r: u32, f: u32, l: u64, n: u64, sheet: u64;
        numbers: u64, lengths: u64, answer: u64);
    check_texts is lavrindes_check_texts(
        ; sheet_text: u8, text: u8; t: u64, v: u64, o: u32, a: u32, b: u32, r: u32, f: u32, l: u64, sheet: u64,
        numbers: u64, lengths: u64, answer: u64);
    read_module is lavrindes_read_module(
        ; text: u8; t: u64, v: u64, o: u32, a: u32, b: u32, r: u32, f: u32, l: u64, header: u64, n: u64, answer: u64);
    read_sheet is lavrindes_read_sheet(; text: u8; sheet: u64, answer: u64);
    read_places is lavrindes_read_back(; o: u32, b: u32, r: u32, f: u32, l: u64, n: u64, numbers: u64; places: u64, answer: u64);
}

pub fn is_served() -> bool {
    Call::where_served().is_some()
}

// No answer has this code: what is left of it was not written.
const UNSAID: Answer = [99, 99, 99];

pub fn tables(x: &Tables) -> Answer {
    let mut answer = UNSAID;
    check_tables(&x.t, &x.v, &x.o, &x.a, &x.b, &x.r, &x.f, &x.l, &x.n, &mut answer);
    answer
}

pub fn dominance(x: &Tables) -> Answer {
    let mut answer = UNSAID;
    check_dominance(&x.t, &x.v, &x.o, &x.a, &x.b, &x.r, &x.f, &x.l, &x.n, &mut answer);
    answer
}

pub fn requirements(x: &Tables, version: u64, sm: u64) -> Answer {
    let mut answer = UNSAID;
    check_requirements(version, sm, &x.t, &x.v, &x.o, &x.a, &x.b, &x.r, &x.f, &x.l, &x.n, &mut answer);
    answer
}

pub fn rules(x: &Tables, version: u64, sm: u64, sheet: &[u64]) -> Answer {
    let mut answer = UNSAID;
    check_rules(version, sm, &x.t, &x.v, &x.o, &x.a, &x.b, &x.r, &x.f, &x.l, &x.n, sheet, &mut answer);
    answer
}

pub fn numbering(x: &Tables, sheet: &[u64], numbers: &mut [u64], lengths: &mut [u64]) -> Answer {
    let mut answer = UNSAID;
    check_numbering(&x.t, &x.v, &x.o, &x.a, &x.b, &x.r, &x.f, &x.l, &x.n, sheet, numbers, lengths, &mut answer);
    answer
}

pub fn all(x: &Tables, version: u64, sm: u64, sheet: &[u64], numbers: &mut [u64], lengths: &mut [u64]) -> Answer {
    let mut answer = UNSAID;
    check_all(version, sm, &x.t, &x.v, &x.o, &x.a, &x.b, &x.r, &x.f, &x.l, &x.n, sheet, numbers, lengths, &mut answer);
    answer
}

pub fn read_back(x: &Tables, numbers: &[u64], places: &mut [u64]) -> Answer {
    let mut answer = UNSAID;
    read_places(&x.o, &x.b, &x.r, &x.f, &x.l, &x.n, numbers, places, &mut answer);
    answer
}
