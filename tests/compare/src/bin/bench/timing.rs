//! Times as minima over interleaved repetitions.

use std::hint::black_box;
use std::time::{Duration, Instant};

/// How long a line takes, and which line is under way.
pub struct Bench {
    pub time: Duration,
    started: Instant,
    lines: u32,
}

impl Bench {
    pub fn new(time: Duration) -> Bench {
        Bench {
            time,
            started: Instant::now(),
            lines: 0,
        }
    }

    /// The progress line.
    pub fn progress(&mut self, name: &str) {
        self.lines += 1;
        let seconds = self.started.elapsed().as_secs();
        eprintln!("{seconds} s: line {}, {name}", self.lines);
    }
}

/// The smallest time of one call in nanoseconds over many batches, for each of the functions in
/// turn.
pub fn minima<const COUNT: usize>(
    mut functions: [&mut dyn FnMut() -> u64; COUNT],
    time: Duration,
) -> [f64; COUNT] {
    // A batch takes some 100 microseconds, so that the clock does not count.
    let mut batches = [1u32; COUNT];
    for (function, calls) in functions.iter_mut().zip(&mut batches) {
        while batch(function, *calls) < Duration::from_micros(100) && *calls < 1 << 20 {
            *calls *= 2;
        }
    }
    let mut least = [f64::MAX; COUNT];
    let began = Instant::now();
    while began.elapsed() < time {
        for ((function, calls), least) in functions.iter_mut().zip(batches).zip(&mut least) {
            let one = batch(function, calls).as_nanos() as f64 / f64::from(calls);
            *least = least.min(one);
        }
    }
    least
}

/// The time of some calls.
fn batch(function: &mut dyn FnMut() -> u64, calls: u32) -> Duration {
    let start = Instant::now();
    for _ in 0..calls {
        black_box(function());
    }
    start.elapsed()
}

/// A ratio as it is printed.
pub fn ratio(one: f64, other: f64) -> String {
    format!("{:.2}", one / other)
}
