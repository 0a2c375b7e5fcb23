//! What the programs here share: how often something is timed, and how.

use std::time::{Duration, Instant};

const RUNS: usize = 31;

/// How many runs are asked for: `--runs NUMBER`, or nothing.
pub fn runs(mut arguments: impl Iterator<Item = String>) -> Option<usize> {
    match (arguments.next(), arguments.next(), arguments.next()) {
        (None, ..) => Some(RUNS),
        (Some(name), Some(value), None) if name == "--runs" => {
            value.parse().ok().filter(|&runs| runs > 0)
        }
        _ => None,
    }
}

fn timed(work: impl FnOnce()) -> Duration {
    let start = Instant::now();
    work();
    start.elapsed()
}

/// The least time of each of some works, taken in turns.
pub fn least<const N: usize>(runs: usize, mut works: [&mut dyn FnMut(); N]) -> [Duration; N] {
    let mut least = [Duration::MAX; N];
    for _ in 0..runs {
        for (least, work) in least.iter_mut().zip(&mut works) {
            *least = timed(&mut **work).min(*least);
        }
    }
    least
}
