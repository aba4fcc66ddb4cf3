//! Times of several drawings, taken in turn, so that what else the machine does falls on all of them alike.

use std::hint::black_box;
use std::time::{Duration, Instant};

/// The times of one task, in milliseconds, in the order of its runs.
pub struct Times(Vec<f64>);

impl Times {
    pub fn least(&self) -> f64 {
        self.0.iter().copied().fold(f64::INFINITY, f64::min)
    }

    /// The median of the ratios to another task's time in the same turn, which a busy machine slows alike.
    pub fn over(&self, other: &Times) -> f64 {
        let mut ratios: Vec<f64> = self.0.iter().zip(&other.0).map(|(a, b)| a / b).collect();
        ratios.sort_by(f64::total_cmp);
        ratios[ratios.len() / 2]
    }
}

/// How long short tasks are repeated beyond their runs: the more often, the likelier one is not disturbed.
const AT_LEAST: Duration = Duration::from_millis(400);

/// Runs the tasks in turn, `runs` times each or more often, and returns the times of each.
pub fn in_turn<const N: usize>(runs: usize, tasks: [&mut dyn FnMut() -> u64; N]) -> [Times; N] {
    let begin = Instant::now();
    in_turn_by(|| begin.elapsed(), runs, AT_LEAST, tasks)
}

/// The same by a clock of the caller's own, and for as long as the caller says.
pub fn in_turn_by<const N: usize>(
    clock: impl Fn() -> Duration,
    runs: usize,
    at_least: Duration,
    mut tasks: [&mut dyn FnMut() -> u64; N],
) -> [Times; N] {
    let mut times = std::array::from_fn(|_| Times(Vec::new()));
    let begin = clock();
    while times[0].0.len() < runs.max(1) || clock() - begin < at_least {
        for (task, times) in tasks.iter_mut().zip(&mut times) {
            let start = clock();
            black_box(task());
            times.0.push((clock() - start).as_secs_f64() * 1e3);
        }
    }
    times
}
