//! Times and the least of them, in seconds.
use std::time::Instant;

/// What the work gives, and the time that it took.
pub fn timed<T>(work: impl FnOnce() -> T) -> (T, f64) {
    let start = Instant::now();
    let given = work();
    (given, start.elapsed().as_secs_f64())
}

/// The least time: what runs beside the work can only make it longer.
pub fn least(times: &[f64]) -> f64 {
    times.iter().copied().fold(f64::INFINITY, f64::min)
}
