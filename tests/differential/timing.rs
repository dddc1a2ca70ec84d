//! The time of a call.

use std::hint::black_box;
use std::time::Instant;

/// Seconds of a call. What it answers is dropped outside the time.
pub fn seconds<A>(call: impl FnOnce() -> A) -> f64 {
    let start = Instant::now();
    let answer = black_box(call());
    let time = start.elapsed().as_secs_f64();
    drop(answer);
    time
}

/// Seconds of the quickest of so many repeats, or of as many as fit the limit.
pub fn quickest<A>(repeats: usize, limit: f64, mut call: impl FnMut() -> A) -> f64 {
    let mut least = f64::MAX;
    let all = Instant::now();
    for _ in 0..repeats {
        least = least.min(seconds(&mut call));
        if all.elapsed().as_secs_f64() > limit {
            break;
        }
    }
    least
}
