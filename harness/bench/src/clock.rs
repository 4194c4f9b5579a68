//! Times as medians.

use std::hint::black_box;
use std::time::{Duration, Instant};

/// The middle of some times.
pub fn median(mut times: Vec<Duration>) -> Duration {
    times.sort();
    times[times.len() / 2]
}

/// The median time of one call: up to 25 samples, fewer if they take long.
pub fn time_of<T>(mut call: impl FnMut() -> T) -> (T, Duration) {
    let start = Instant::now();
    let result = black_box(call());
    let mut times = vec![start.elapsed()];
    let batch = (Duration::from_micros(20).as_nanos() / times[0].as_nanos().max(1)).clamp(1, 1000) as u32;
    while times.len() < 25 && start.elapsed() < Duration::from_millis(60) {
        let from = Instant::now();
        for _ in 0..batch {
            black_box(call());
        }
        times.push(from.elapsed() / batch);
    }
    (result, median(times))
}

/// A time with a unit that suits it.
pub fn shown(time: Duration) -> String {
    let ns = time.as_nanos() as f64;
    match ns {
        _ if ns < 1e3 => format!("{ns:.0} ns"),
        _ if ns < 1e6 => format!("{:.1} µs", ns / 1e3),
        _ if ns < 1e9 => format!("{:.1} ms", ns / 1e6),
        _ => format!("{:.1} s", ns / 1e9),
    }
}
