//! The archive's functions as they are exported: a slice is its address and its length. All of the crate's unsafe code stands here.
//! Each function is total: a slice of any length and with any entries is allowed, and nothing but the slices lent as `&mut` is written.

macro_rules! exported {
    ($($name:ident is $symbol:ident($($number:ident),*; $($read:ident: $r:ty),*; $($written:ident: $w:ty),*);)*) => {
        mod c {
            extern "C" {
                $(pub fn $symbol($($number: u64,)* $($read: *const $r, _: usize,)* $($written: *mut $w, _: usize),*);)*
            }
        }
        $(
            // As many slices as the archive's function takes.
            #[allow(clippy::too_many_arguments)]
            pub fn $name($($number: u64,)* $($read: &[$r],)* $($written: &mut [$w]),*) {
                // SAFETY: the signature is the exported one (include/lavrindes.h); each address and length is that of a live slice, and
                // no written slice overlaps another, since it is borrowed as `&mut`.
                unsafe { c::$symbol($($number,)* $($read.as_ptr(), $read.len(),)* $($written.as_mut_ptr(), $written.len()),*) }
            }
        )*
    };
}

exported! {
    check_texts is lavrindes_check_texts(
        ; sheet_text: u8, text: u8;
        t: u64, v: u64, o: u32, a: u32, b: u32, r: u32, f: u32, l: u64, sheet: u64, numbers: u64, lengths: u64, answer: u64);
    check_all is lavrindes_check_all(
        version, sm; t: u64, v: u64, o: u32, a: u32, b: u32, r: u32, f: u32, l: u64, counts: u64, sheet: u64;
        numbers: u64, lengths: u64, answer: u64);
    check_tables is lavrindes_check_tables(
        ; t: u64, v: u64, o: u32, a: u32, b: u32, r: u32, f: u32, l: u64, counts: u64; answer: u64);
    check_dominance is lavrindes_check_dominance(
        ; t: u64, v: u64, o: u32, a: u32, b: u32, r: u32, f: u32, l: u64, counts: u64; answer: u64);
    check_numbering is lavrindes_check_numbering(
        ; t: u64, v: u64, o: u32, a: u32, b: u32, r: u32, f: u32, l: u64, counts: u64, sheet: u64;
        numbers: u64, lengths: u64, answer: u64);
    check_requirements is lavrindes_check_requirements(
        version, sm; t: u64, v: u64, o: u32, a: u32, b: u32, r: u32, f: u32, l: u64, counts: u64; answer: u64);
    check_rules is lavrindes_check_rules(
        version, sm; t: u64, v: u64, o: u32, a: u32, b: u32, r: u32, f: u32, l: u64, counts: u64, sheet: u64; answer: u64);
    read_back is lavrindes_read_back(
        ; o: u32, b: u32, r: u32, f: u32, l: u64, counts: u64, numbers: u64; places: u64, answer: u64);
    read_module is lavrindes_read_module(
        ; text: u8; t: u64, v: u64, o: u32, a: u32, b: u32, r: u32, f: u32, l: u64, header: u64, counts: u64, answer: u64);
    read_sheet is lavrindes_read_sheet(; text: u8; sheet: u64, answer: u64);
}
