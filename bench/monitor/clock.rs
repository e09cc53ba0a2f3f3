//! Times by the wall clock, of which the least is taken: an interruption can only make such a time longer.
//!
//! The processor time of the thread would seem better on a busy machine, but it reads short now and then after an interruption, and the least of many
//! times is then one of those.

use std::time::Instant;

/// The least of several times, in nanoseconds.
pub struct Least(f64);

impl Least {
    pub fn new() -> Least {
        Least(f64::INFINITY)
    }

    /// One more time, which is handed back too.
    pub fn take(&mut self, run: impl FnOnce()) -> f64 {
        let start = Instant::now();
        run();
        let taken = start.elapsed().as_secs_f64() * 1e9;
        self.0 = self.0.min(taken);
        taken
    }

    /// How much more this took than the other, for each of `count`.
    pub fn beyond(&self, other: &Least, count: usize) -> f64 {
        (self.0 - other.0) / count as f64
    }
}
