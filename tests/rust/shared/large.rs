// Modules of a given size: blocks nested in a chain, the operations shared out evenly among them, so many results each, one operand.
use super::tables::*;
use super::visible::draw_operands;

// Operations and depth as asked; twice as many values as operations. At 2,048 and 32 these are the largest that the tables take.
pub fn nested_module(operations: u64, depth: u64, r: &mut Random) -> Tables {
    nested(operations, depth, 2, r)
}

pub fn nested(operations: u64, depth: u64, results: u64, r: &mut Random) -> Tables {
    // Operation 0 is the function; the others are shared out, and the middle one of each block but the last opens the next.
    let share = |j: u64| (1 + j * (operations - 1) / depth..1 + (j + 1) * (operations - 1) / depth).collect::<Vec<u64>>();
    let opens = |j: u64| share(j)[share(j).len() / 2];
    let (po, pb, pr) = (r.permutation(operations), r.permutation(depth), r.permutation(depth));
    let pv = inverse(&r.permutation(2 + (operations - 1) * results));
    let mut x = Tables::default();
    x.typed(1, 4, &[]);
    // Values 0 and 1 are the function's arguments; the results of operations 1, 2 .. follow.
    for old in inverse(&pv) {
        x.value(0, (old >= 2).then(|| (po[1 + ((old - 2) / results) as usize], (old - 2) % results)));
    }
    for old in inverse(&po) {
        let regions: Vec<u64> = match (0..depth - 1).find(|j| opens(*j) == old) {
            _ if old == 0 => vec![pr[0]],
            Some(j) => vec![pr[j as usize + 1]],
            None => vec![],
        };
        // The list entries leave room for one operand in most operations.
        let operands = if old == 0 || old % 32 == 0 { vec![] } else { vec![0] };
        let types = vec![0; if old == 0 { 0 } else { results as usize }];
        x.operation(3, &types, &operands, &regions, (0, 0));
    }
    for old in inverse(&pb) {
        let inside: Vec<u64> = share(old).iter().map(|i| po[*i as usize]).collect();
        x.block(if old == 0 { &pv[..2] } else { &[] }, &inside);
    }
    inverse(&pr).into_iter().for_each(|old| x.region(&[pb[old as usize]]));
    x.function(po[0] as u32);
    draw_operands(&mut x, r, u64::MAX);
    x
}
