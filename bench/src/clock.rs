//! Time of a piece of work, and how much of it to do.

use std::hint::black_box;
use std::time::{Duration, Instant};

pub struct Work {
    /// The least time of one measurement.
    pub at_least: Duration,
    /// The measurements, of which the best counts.
    pub rounds: usize,
    pub events: usize,
    pub random_rules: usize,
}

impl Work {
    pub fn full() -> Self {
        Work {
            at_least: Duration::from_millis(4),
            rounds: 7,
            events: 10_000_000,
            random_rules: 100,
        }
    }

    pub fn smoke() -> Self {
        Work { at_least: Duration::ZERO, rounds: 1, events: 10_000, random_rules: 5 }
    }

    /// Nanoseconds for one call.
    pub fn nanoseconds<T>(&self, mut call: impl FnMut() -> T) -> f64 {
        let mut best = f64::INFINITY;
        for _ in 0..self.rounds {
            let start = Instant::now();
            let mut calls = 0;
            while calls == 0 || start.elapsed() < self.at_least {
                black_box(call());
                calls += 1;
            }
            best = best.min(start.elapsed().as_nanos() as f64 / f64::from(calls));
        }
        best
    }
}
