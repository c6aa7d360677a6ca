//! The least time of repeated runs.

use std::hint::black_box;
use std::time::{Duration, Instant};

/// A run of calls is at least this long, so that the clock's own time does not show.
const RUN: Duration = Duration::from_micros(200);
/// Runs go on for about this long, and there are at least three.
const ALL: Duration = Duration::from_millis(600);

fn timed<T>(count: u32, call: &mut impl FnMut() -> T) -> Duration {
    let start = Instant::now();
    for _ in 0..count {
        black_box(call());
    }
    start.elapsed()
}

/// How many calls make a run.
fn calls_of_a_run<T>(call: &mut impl FnMut() -> T) -> u32 {
    let mut count = 1;
    while timed(count, call) < RUN {
        count *= 2;
    }
    count
}

/// Seconds of one call.
pub fn least<T>(mut call: impl FnMut() -> T) -> f64 {
    let count = calls_of_a_run(&mut call);
    let start = Instant::now();
    let mut best = Duration::MAX;
    let mut runs = 0;
    while runs < 3 || start.elapsed() < ALL {
        best = best.min(timed(count, &mut call));
        runs += 1;
    }
    best.as_secs_f64() / f64::from(count)
}
