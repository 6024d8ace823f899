// Damaged tables.
use super::tables::*;

// One damage: a cell of any table, a count, or a slice cut short.
pub fn damage(x: &mut Tables, r: &mut Random) {
    let near = |r: &mut Random, n: u64| [0, 1, 2, n.wrapping_sub(1), n, n + 1, 7, 9, 16, 105, u32::MAX as u64, 1 << 31, u64::MAX, 1 << 63][r.below(14) as usize];
    let count = x.n[r.below(7) as usize];
    let value = near(r, count);
    let set32 = |cells: &mut Vec<u32>, at: u64| {
        if !cells.is_empty() {
            let k = at as usize % cells.len();
            cells[k] = value as u32;
        }
    };
    let set64 = |cells: &mut Vec<u64>, at: u64| {
        if !cells.is_empty() {
            let k = at as usize % cells.len();
            cells[k] = value;
        }
    };
    let at = r.next();
    match r.below(12) {
        0 => set64(&mut x.t, at),
        1 => set64(&mut x.v, at),
        2 | 3 => set32(&mut x.o, at),
        4 => set32(&mut x.a, at),
        5 => set32(&mut x.b, at),
        6 => set32(&mut x.r, at),
        7 => set32(&mut x.f, at),
        8 | 9 => set64(&mut x.l, at),
        10 => x.n[at as usize % 7] = value,
        _ => match at % 8 {
            0 => x.t.truncate(r.below(x.t.len() as u64 + 1) as usize),
            1 => x.v.truncate(r.below(x.v.len() as u64 + 1) as usize),
            2 => x.o.truncate(r.below(x.o.len() as u64 + 1) as usize),
            3 => x.a.truncate(r.below(x.a.len() as u64 + 1) as usize),
            4 => x.b.truncate(r.below(x.b.len() as u64 + 1) as usize),
            5 => x.r.truncate(r.below(x.r.len() as u64 + 1) as usize),
            6 => x.f.truncate(r.below(x.f.len() as u64 + 1) as usize),
            _ => x.l.truncate(r.below(x.l.len() as u64 + 1) as usize),
        },
    }
}
