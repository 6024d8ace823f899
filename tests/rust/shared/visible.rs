// Operands of every reachable operation drawn from what is visible there, but for a few: those are drawn from all values.
use super::tables::*;

struct Walk<'a> {
    r: &'a mut Random,
    results: Vec<Vec<u64>>,
    live: Vec<u64>,
    stray: u64,
}

impl Walk<'_> {
    fn region(&mut self, x: &mut Tables, k: u64) {
        for j in x.operands_of(REGIONS, k, 0) {
            let kept = self.live.len();
            self.live.extend(x.operands_of(BLOCKS, j, 0));
            for i in x.operands_of(BLOCKS, j, 2) {
                self.operation(x, i);
            }
            self.live.truncate(kept);
        }
    }
    fn operation(&mut self, x: &mut Tables, i: u64) {
        let (start, n) = (x.o[i as usize * 16 + 3] as usize, x.o[i as usize * 16 + 4] as usize);
        for k in start..start + n {
            let wild = self.live.is_empty() || self.r.below(self.stray) == 0;
            x.l[k] = if wild { self.r.below(x.n[VALUES]) } else { self.live[self.r.below(self.live.len() as u64) as usize] };
        }
        self.live.extend(self.results[i as usize].clone());
        for k in x.operands_of(OPERATIONS, i, 5) {
            self.region(x, k);
        }
    }
}

// One operand in `stray` is drawn from all values; 0 means none.
pub fn draw_operands(x: &mut Tables, r: &mut Random, stray: u64) {
    let results = x.values_of_results();
    let mut walk = Walk { r, results, live: vec![], stray };
    for f in x.functions() {
        walk.live.clear();
        for k in x.operands_of(OPERATIONS, f, 5) {
            walk.region(x, k);
        }
    }
}
