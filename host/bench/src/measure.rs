//! Times of two ways to do the same, taken in turn.

use std::hint::black_box;
use std::time::{Duration, Instant};

/// Times of the Rust and of the proved library.
#[derive(Debug, Default)]
pub struct Times {
    rust: Vec<Duration>,
    proved: Vec<Duration>,
}

/// Microseconds of the Rust and of the proved library.
#[derive(Clone, Copy, Debug)]
pub struct Medians {
    pub rust: f64,
    pub proved: f64,
}

/// Only the run itself; what it gives is dropped outside.
fn timed<T>(run: impl FnOnce() -> T) -> Duration {
    let start = Instant::now();
    let given = black_box(run());
    let time = start.elapsed();
    drop(given);
    time
}

fn median(times: &[Duration]) -> f64 {
    let mut times = times.to_vec();
    times.sort_unstable();
    let middle = times.get(times.len() / 2).copied().unwrap_or_default();
    middle.as_secs_f64() * 1e6
}

impl Times {
    pub fn rust<T>(&mut self, run: impl FnOnce() -> T) {
        self.rust.push(timed(run));
    }

    pub fn proved<T>(&mut self, run: impl FnOnce() -> T) {
        self.proved.push(timed(run));
    }

    pub fn medians(&self) -> Medians {
        Medians {
            rust: median(&self.rust),
            proved: median(&self.proved),
        }
    }
}
