//! Single calls by the processor's clock.

use std::arch::x86_64::{_mm_lfence, _mm_mfence, _rdtsc};
use std::time::Instant;

#[inline(always)]
fn ticks() -> u64 {
    unsafe {
        _mm_lfence();
        let now = _rdtsc();
        _mm_lfence();
        now
    }
}

pub struct Clock {
    ticks_a_nanosecond: f64,
    /// What an empty measurement takes.
    empty: u64,
}

impl Clock {
    pub fn new() -> Clock {
        let (start, from) = (Instant::now(), ticks());
        while start.elapsed().as_millis() < 100 {}
        let ticks_a_nanosecond = (ticks() - from) as f64 / start.elapsed().as_nanos() as f64;
        let empty = (0..100_000).map(|_| {
            let from = ticks();
            ticks() - from
        });
        Clock { ticks_a_nanosecond, empty: empty.min().unwrap() }
    }

    /// The least time of some work over many repeats, each on the same state made anew. What making it
    /// writes is in the cache before the clock is read, so that its length doesn't count.
    pub fn least<S: Clone>(&self, repeats: usize, state: &S, mut work: impl FnMut(&mut S)) -> f64 {
        let mut again = state.clone();
        let mut least = u64::MAX;
        for _ in 0..repeats {
            again.clone_from(state);
            let lent = std::hint::black_box(&mut again);
            unsafe { _mm_mfence() };
            let from = ticks();
            work(lent);
            least = least.min(ticks() - from);
        }
        least.saturating_sub(self.empty) as f64 / self.ticks_a_nanosecond
    }
}
