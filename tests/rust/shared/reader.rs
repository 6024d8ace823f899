// A plain reader of module texts and rule sheets, written from the paper's "House text" and "Codes"; it shares nothing with the crates.
#![allow(dead_code)]
use crate::shared::tables::*;

pub const MOST_BYTES: usize = 65_536;
pub const MOST_ENTRIES: usize = 8_192;
pub const SHEET_CELLS: usize = 320;

// What is wrong with a line: a field, counted from 1, 0 for the line as a whole; or a size that it passes, a table and an entry.
pub enum Fault {
    Field(u64),
    Size(usize, u64),
}
use Fault::{Field, Size};

// ---- lines and fields

// The fields of a line; no line has more than seven, so of more only the number is kept.
struct Fields<'a> {
    count: usize,
    at: [&'a [u8]; 7],
}

impl<'a> Fields<'a> {
    fn of(line: &'a [u8]) -> Self {
        let mut fields = Fields { count: 0, at: [&[]; 7] };
        for field in line.split(|b| *b == b'\t') {
            if let Some(place) = fields.at.get_mut(fields.count) {
                *place = field;
            }
            fields.count += 1;
        }
        fields
    }
}

// "The first bad line answers": the lines go to `take` in turn. The LF counts among a line's bytes.
fn each_line(text: &[u8], mut take: impl FnMut(&Fields) -> Result<(), Fault>) -> Result<(), Answer> {
    if text.is_empty() {
        return Err([15, 1, 0]);
    }
    let mut end = 0;
    for (before, line) in text.split_inclusive(|b| *b == b'\n').enumerate() {
        let number = before as u64 + 1;
        end += line.len();
        if end > MOST_BYTES {
            return Err([1, 0, 0]);
        }
        let Some(line) = line.strip_suffix(b"\n") else { return Err([15, number, 0]) };
        take(&Fields::of(line)).map_err(|fault| match fault {
            Field(field) => [15, number, field],
            Size(table, entry) => [1, table as u64 + 1, entry],
        })?;
    }
    Ok(())
}

fn ensure(holds: bool, fault: Fault) -> Result<(), Fault> {
    if holds { Ok(()) } else { Err(fault) }
}

// ---- numbers: "decimal numbers without leading zeros; minus only before a nonzero number"

// No column is wider than 64 bits: what is greater is too wide for all.
fn decimal(s: &[u8]) -> Option<u64> {
    if s.is_empty() || s[0] == b'0' && s.len() > 1 {
        return None;
    }
    let mut n = 0u64;
    for b in s {
        let digit = b.wrapping_sub(b'0');
        if digit > 9 {
            return None;
        }
        n = n.checked_mul(10)?.checked_add(digit as u64)?;
    }
    Some(n)
}

fn up_to(most: u64) -> impl Fn(&[u8]) -> Option<u64> {
    move |s| decimal(s).filter(|n| *n <= most)
}

// Negative numbers as the 64 bits of their two's complement.
fn signed(bits: u32) -> impl Fn(&[u8]) -> Option<u64> {
    let half = 1u64 << (bits - 1);
    move |s| match s.strip_prefix(b"-") {
        Some(digits) => decimal(digits).filter(|n| 0 < *n && *n <= half).map(u64::wrapping_neg),
        None => decimal(s).filter(|n| *n < half),
    }
}

const ID: u64 = u32::MAX as u64;
const FLAG: u64 = 1;
const KINDS: u64 = 16;
const OPCODES: u64 = 105;

fn number(w: &Fields, field: u64, read: impl Fn(&[u8]) -> Option<u64>) -> Result<u64, Fault> {
    read(w.at[field as usize - 1]).ok_or(Field(field))
}

// The numbers of a list, one after the other into `to`; how many there are. An empty field is the empty list.
fn list(w: &Fields, field: u64, to: &mut Vec<u64>, read: impl Fn(&[u8]) -> Option<u64>) -> Result<u32, Fault> {
    let s = w.at[field as usize - 1];
    let before = to.len();
    if !s.is_empty() {
        for item in s.split(|b| *b == b',') {
            to.push(read(item).ok_or(Field(field))?);
        }
    }
    Ok((to.len() - before) as u32)
}

// ---- a module

#[derive(Default)]
pub struct Module {
    pub version: u64,
    pub sm: u64,
    pub tables: Tables,
}

// "Kinds of line in this order"; a module's place is the kind last read, 0 before the header.
const HEADER: u32 = 1;
const OPERATION: u32 = 4;

impl Module {
    fn clear(&mut self) {
        let x = &mut self.tables;
        [&mut x.t, &mut x.v, &mut x.l].into_iter().for_each(Vec::clear);
        [&mut x.o, &mut x.a, &mut x.b, &mut x.r, &mut x.f].into_iter().for_each(Vec::clear);
        x.n = [0; 7];
    }

    fn line(&mut self, w: &Fields, place: &mut u32) -> Result<(), Fault> {
        let tag = w.at[0];
        let (kind, fields) = match tag {
            b"tile" => (HEADER, 4),
            b"T" => (2, 7),
            b"V" => (3, 4),
            b"O" => (OPERATION, 5),
            b"A" => (OPERATION, 4),
            b"B" => (5, 3),
            b"R" => (6, 2),
            b"F" => (7, 2),
            _ => return Err(Field(1)),
        };
        let in_order = match tag {
            b"tile" => *place == 0,
            b"A" => *place == OPERATION,
            _ => HEADER <= *place && *place <= kind,
        };
        ensure(w.count == fields && in_order, Field(0))?;
        *place = kind;
        match tag {
            b"tile" => self.header(w),
            b"T" => self.type_line(w),
            b"V" => self.value_line(w),
            b"O" => self.operation_line(w),
            b"A" => self.attribute_line(w),
            b"B" => self.block_line(w),
            b"R" => self.region_line(w),
            _ => self.function_line(w),
        }
    }

    fn header(&mut self, w: &Fields) -> Result<(), Fault> {
        ensure(w.at[1] == b"1", Field(2))?;
        self.version = number(w, 3, signed(64))?;
        self.sm = number(w, 4, signed(64))?;
        Ok(())
    }

    // One entry more, if the table has room for it and the list entries are not passed.
    fn entry(&mut self, table: usize) -> Result<(), Fault> {
        let n = &mut self.tables.n[table];
        ensure(*n < SIZES[table] && self.tables.l.len() <= MOST_ENTRIES, Size(table, *n))?;
        *n += 1;
        Ok(())
    }

    fn type_line(&mut self, w: &Fields) -> Result<(), Fault> {
        let form = number(w, 2, up_to(6))?;
        let mut row = [0; 16];
        row[0] = form;
        row[1] = number(w, 3, up_to(KINDS - 1))?;
        row[2] = number(w, 4, up_to(ID))?;
        row[3] = number(w, 5, up_to(FLAG))?;
        row[4] = number(w, 6, signed(32))?;
        let mut rank = 0;
        if !w.at[6].is_empty() {
            let dim = signed(if form < 4 { 64 } else { 32 });
            for item in w.at[6].split(|b| *b == b',') {
                let n = dim(item).ok_or(Field(7))?;
                if rank < 8 {
                    row[8 + rank] = n;
                }
                rank += 1;
            }
        }
        ensure(rank <= 8, Size(TYPES, self.tables.n[TYPES]))?;
        row[5] = rank as u64;
        self.tables.t.extend(row);
        self.entry(TYPES)
    }

    // "operation and result or two empty fields (one empty alone is the bad one)"
    fn value_line(&mut self, w: &Fields) -> Result<(), Fault> {
        let ty = number(w, 2, up_to(ID))?;
        let row = match (w.at[2], w.at[3]) {
            (b"", b"") => [ty, 0, 0, 0],
            _ => [ty, 1, number(w, 3, up_to(ID))?, number(w, 4, signed(64))?],
        };
        self.tables.v.extend(row);
        self.entry(VALUES)
    }

    fn operation_line(&mut self, w: &Fields) -> Result<(), Fault> {
        let mut row = [0; 16];
        row[0] = number(w, 2, up_to(OPCODES - 1))? as u32;
        for k in 0..3 {
            row[1 + 2 * k] = self.tables.l.len() as u32;
            row[2 + 2 * k] = list(w, 3 + k as u64, &mut self.tables.l, up_to(ID))?;
        }
        row[7] = self.tables.n[ATTRIBUTES] as u32;
        self.tables.o.extend(row);
        self.entry(OPERATIONS)
    }

    // The name's number, the form's place in `ibazpdsrx`, and its numbers; a number that is absent stands as 0.
    fn attribute_line(&mut self, w: &Fields) -> Result<(), Fault> {
        let (name, l) = (w.at[1], &mut self.tables.l);
        let start = l.len() as u32;
        ensure(!name.is_empty(), Field(2))?;
        let known = NAMES[1..].iter().position(|n| n.as_bytes() == name).map_or(0, |k| k as u32 + 1);
        let mut absent = 0;
        let (form, len) = match w.at[2] {
            b"i" => (0, one(w, l, signed(64))?),
            b"b" => (1, one(w, l, up_to(FLAG))?),
            b"a" => (2, list(w, 4, l, signed(64))?),
            b"z" => (3, list(w, 4, l, up_to(FLAG))?),
            b"p" => (4, list(w, 4, l, signed(32))?),
            b"d" => (5, exactly::<3>(w, l, up_to(u64::MAX), &mut absent)?),
            b"s" => (6, list(w, 4, l, signed(64))?),
            b"r" => (7, exactly::<2>(w, l, signed(64), &mut absent)?),
            b"x" => (8, ensure(w.at[3].is_empty(), Field(4)).map(|_| 0)?),
            _ => return Err(Field(3)),
        };
        // Divisors are never absent: of `d` only every and along.
        ensure(form != 5 || absent & 1 == 0, Field(4))?;
        self.tables.a.extend([known, form, start, len, absent, 0, 0, 0]);
        self.entry(ATTRIBUTES)?;
        let last = self.tables.n[OPERATIONS] as usize - 1;
        self.tables.o[last * 16 + 8] += 1;
        Ok(())
    }

    fn block_line(&mut self, w: &Fields) -> Result<(), Fault> {
        let l = &mut self.tables.l;
        let start = l.len() as u32;
        let arguments = list(w, 2, l, up_to(ID))?;
        let operations = list(w, 3, l, up_to(ID))?;
        self.tables.b.extend([start, arguments, start + arguments, operations]);
        self.entry(BLOCKS)
    }

    fn region_line(&mut self, w: &Fields) -> Result<(), Fault> {
        let start = self.tables.l.len() as u32;
        let blocks = list(w, 2, &mut self.tables.l, up_to(ID))?;
        self.tables.r.extend([start, blocks]);
        self.entry(REGIONS)
    }

    fn function_line(&mut self, w: &Fields) -> Result<(), Fault> {
        self.tables.f.push(number(w, 2, up_to(ID))? as u32);
        self.entry(FUNCTIONS)
    }
}

fn one(w: &Fields, l: &mut Vec<u64>, read: impl Fn(&[u8]) -> Option<u64>) -> Result<u32, Fault> {
    l.push(number(w, 4, read)?);
    Ok(1)
}

// N numbers of which any may be empty; the first is read by `first`, the others are signed 64. Bit k of `absent` is that of number k.
fn exactly<const N: usize>(w: &Fields, l: &mut Vec<u64>, first: impl Fn(&[u8]) -> Option<u64>, absent: &mut u32) -> Result<u32, Fault> {
    let mut found = 0;
    for item in w.at[3].split(|b| *b == b',') {
        let n = match item {
            b"" => {
                *absent |= 1u32.checked_shl(found as u32).unwrap_or(0);
                Some(0)
            }
            _ if found == 0 => first(item),
            _ => signed(64)(item),
        };
        l.push(n.ok_or(Field(4))?);
        found += 1;
    }
    ensure(found == N, Field(4)).map(|_| N as u32)
}

// The module of a text, in tables that are emptied first.
pub fn read_module(text: &[u8], module: &mut Module) -> Result<(), Answer> {
    module.clear();
    let mut place = 0;
    each_line(text, |w| module.line(w, &mut place))
}

// "The first lent table below full size (list entries last) gives 13 with that size before any line": by the cells lent.
pub fn too_short(lent: [usize; 8]) -> Option<Answer> {
    let full = |k: usize| if k < 7 { (SIZES[k], WIDTHS[k]) } else { (MOST_ENTRIES as u64, 1) };
    (0..8).map(full).zip(lent).find(|((size, width), cells)| *cells < *size as usize * width).map(|((size, _), _)| [13, 0, size])
}

// ---- a rule sheet

// "`sheet|1`, then in this order, keys rising, `t` once at most": the kind and key of the last line tell whether the next is in order.
pub fn read_sheet(text: &[u8]) -> Result<Vec<u64>, Answer> {
    let mut sheet = vec![0; SHEET_CELLS];
    let mut last: Option<(u32, u64)> = None;
    each_line(text, |w| {
        let kind = match w.at[0] {
            b"sheet" => 0,
            b"c" => 1,
            b"m" => 2,
            b"p" => 3,
            b"w" => 4,
            b"t" => 5,
            _ => return Err(Field(1)),
        };
        let in_order = last.map_or(kind == 0, |(k, _)| kind > 0 && k <= kind && (k, kind) != (5, 5));
        ensure(in_order && w.count == if kind == 0 || kind == 5 { 2 } else { 3 }, Field(0))?;
        let key = match kind {
            0 => number(w, 2, up_to(1)).and_then(|n| ensure(n == 1, Field(2))).map(|_| 0)?,
            1 => number(w, 2, up_to(OPCODES - 1))?,
            5 => number(w, 2, up_to(FLAG))?,
            _ => number(w, 2, up_to(15))?,
        };
        ensure(last.is_none_or(|(k, before)| k < kind || before < key), Field(0))?;
        last = Some((kind, key));
        let k = key as usize;
        match kind {
            1 => {
                sheet[2 * k + 1] = number(w, 3, signed(64))?;
                sheet[2 * k] = 1;
            }
            2 => sheet[256 + k] = number(w, 3, up_to(u16::MAX as u64))?,
            3 => sheet[272 + k] = number(w, 3, up_to(u16::MAX as u64))?,
            4 => sheet[288 + k] = number(w, 3, signed(64))?,
            5 => sheet[304] = key,
            _ => {}
        }
        Ok(())
    })?;
    Ok(sheet)
}
