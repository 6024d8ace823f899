// The entry walks read plainly off the paper, with the places that are live at each operand; it shares nothing with the crates.
use super::tables::*;

// 0 and a block or 1 and an operation, its id, the index.
pub type Place = [u64; 3];

// Tells each operand of the entry walks: its operation, its index there, and what is live.
pub fn entry_walks(x: &Tables, mut seen: impl FnMut(u64, u64, &[Place])) {
    for f in x.functions() {
        let region = x.operands_of(OPERATIONS, f, 5).first().copied();
        if let Some(j) = region.and_then(|k| x.operands_of(REGIONS, k, 0).first().copied()) {
            block(x, j, &mut vec![], &mut seen);
        }
    }
}

fn block(x: &Tables, j: u64, live: &mut Vec<Place>, seen: &mut impl FnMut(u64, u64, &[Place])) {
    live.extend((0..x.b[j as usize * 4 + 1] as u64).map(|k| [0, j, k]));
    for i in x.operands_of(BLOCKS, j, 2) {
        (0..x.o[i as usize * 16 + 4] as u64).for_each(|k| seen(i, k, live));
        live.extend((0..x.o[i as usize * 16 + 2] as u64).map(|k| [1, i, k]));
        for k in x.operands_of(OPERATIONS, i, 5) {
            for inner in x.operands_of(REGIONS, k, 0) {
                let kept = live.len();
                block(x, inner, live, seen);
                live.truncate(kept);
            }
        }
    }
}

// The defining place of each value, read off the tables alone: the block that lists it and its position there, or the result it claims.
pub fn defining_places(x: &Tables) -> Vec<Option<Place>> {
    let mut places = vec![None; x.n[VALUES] as usize];
    for (i, values) in x.values_of_results().iter().enumerate() {
        values.iter().for_each(|v| places[*v as usize] = Some([1, i as u64, x.v[*v as usize * 4 + 3]]));
    }
    for j in 0..x.n[BLOCKS] {
        x.operands_of(BLOCKS, j, 0).iter().enumerate().for_each(|(k, v)| places[*v as usize] = Some([0, j, k as u64]));
    }
    places
}
