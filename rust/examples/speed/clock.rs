//! How long a run takes: the fastest of several, since what slows one down is the machine's doing.

use std::{hint::black_box, time::Instant};

/// Seconds of one run.
fn seconds<T>(run: impl FnOnce() -> T) -> f64 {
    let start = Instant::now();
    black_box(run());
    start.elapsed().as_secs_f64()
}

/// Seconds of the fastest of five runs, or of fewer where they take more than a second together.
pub fn best<T>(mut run: impl FnMut() -> T) -> f64 {
    let (mut fastest, mut all) = (f64::INFINITY, 0.0);
    for _ in 0..5 {
        let took = seconds(&mut run);
        (fastest, all) = (took.min(fastest), all + took);
        if all > 1.0 {
            break;
        }
    }
    fastest
}

/// Seconds of the fastest run of each, of those of so many seconds, five at least. They take turns, so that a slow moment of the machine falls on all of them.
pub fn by_turns<T, const N: usize>(long: f64, mut runs: [&mut dyn FnMut() -> T; N]) -> [f64; N] {
    let (mut fastest, mut rounds, started) = ([f64::INFINITY; N], 0, Instant::now());
    while rounds < 5 || started.elapsed().as_secs_f64() < long {
        for (run, best) in runs.iter_mut().zip(&mut fastest) {
            *best = seconds(run).min(*best);
        }
        rounds += 1;
    }
    fastest
}

/// Seconds of each way to do so many parts, of every part the fastest run of those of so many seconds, five at least. The ways take turns,
/// each with all parts, so that none finds a part as the other has just left it.
pub fn parts_by_turns<const N: usize>(long: f64, parts: usize, mut ways: [&mut dyn FnMut(usize); N]) -> [f64; N] {
    let (mut fastest, mut rounds, started) = ([(); N].map(|()| vec![f64::INFINITY; parts]), 0, Instant::now());
    while rounds < 5 || started.elapsed().as_secs_f64() < long {
        for (way, fastest) in ways.iter_mut().zip(&mut fastest) {
            for (part, best) in fastest.iter_mut().enumerate() {
                *best = seconds(|| way(part)).min(*best);
            }
        }
        rounds += 1;
    }
    fastest.map(|parts| parts.iter().sum())
}

/// A time in a table: milliseconds, or `-` where nothing was run.
pub fn ms(seconds: Option<f64>) -> String {
    match seconds.map(|s| s * 1e3) {
        None => "-".into(),
        Some(ms) if ms < 0.1 => format!("{ms:.3}"),
        Some(ms) => format!("{ms:.1}"),
    }
}
