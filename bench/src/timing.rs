//! Two sides timed in turn, in one run, and the medians of their times.

use std::time::Instant;

/// So many samples of each side.
const SAMPLES: usize = 15;

/// The median time of a unit of work on both sides, in nanoseconds.
pub struct Times {
    pub library: f64,
    pub peer: f64,
}

/// The time of one call in nanoseconds, and what it gives.
pub fn timed<R>(call: impl FnOnce() -> R) -> (f64, R) {
    let start = Instant::now();
    let result = std::hint::black_box(call());
    (start.elapsed().as_nanos() as f64, result)
}

pub fn median(mut samples: Vec<f64>) -> f64 {
    samples.sort_by(f64::total_cmp);
    samples[samples.len() / 2]
}

/// Times both sides in turn. A side gives its time in nanoseconds and its result; all results have to be equal.
pub fn in_turn<R: PartialEq + std::fmt::Debug>(
    name: &str,
    units: usize,
    mut library: impl FnMut() -> (f64, R),
    mut peer: impl FnMut() -> (f64, R),
) -> Times {
    // One call of each to warm up.
    let wanted = library().1;
    let check = |(time, result): (f64, R)| {
        assert_eq!(result, wanted, "{name}: the two sides differ");
        time / units as f64
    };
    check(peer());
    let mut times = (Vec::new(), Vec::new());
    for _ in 0..SAMPLES {
        times.0.push(check(library()));
        times.1.push(check(peer()));
    }
    Times { library: median(times.0), peer: median(times.1) }
}

/// The median time of one side alone.
pub fn alone(units: usize, mut side: impl FnMut() -> f64) -> f64 {
    side();
    median((0..SAMPLES).map(|_| side() / units as f64).collect())
}
