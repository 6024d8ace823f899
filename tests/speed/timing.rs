// Timing: the least time of one call over many rounds.
use std::hint::black_box;

extern "C" {
    fn clock_gettime(clock: i32, time: *mut [i64; 2]) -> i32;
}

// The processor's time of this thread, in seconds: what other programs take is not in it.
fn now() -> f64 {
    let mut t = [0; 2];
    assert_eq!(unsafe { clock_gettime(3, &mut t) }, 0);
    t[0] as f64 + t[1] as f64 * 1e-9
}

// The least time of one call, in seconds, the calls taking turns.
pub fn times<const N: usize>(calls: [&mut dyn FnMut() -> bool; N]) -> [f64; N] {
    let timed = |f: &mut dyn FnMut() -> bool, n: usize| {
        let began = now();
        (0..n).for_each(|_| assert!(black_box(f()), "what is timed passes"));
        (now() - began) / n as f64
    };
    let mut batch = [0; N];
    let mut least = [f64::MAX; N];
    for k in 0..N {
        batch[k] = (0.001 / timed(calls[k], 3)).ceil() as usize;
    }
    for _ in 0..60 {
        for k in 0..N {
            least[k] = least[k].min(timed(calls[k], batch[k]));
        }
    }
    least
}
