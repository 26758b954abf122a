//! Time, side by side.

use crate::work::{Work, BATCH};
use std::time::{Duration, Instant};

/// How long one case is measured.
const SPAN: Duration = Duration::from_millis(400);

/// Rounds that are measured however long they take.
const LEAST_ROUNDS: usize = 31;

/// Rounds before the measured ones.
const WARMING: usize = 20;

/// What a case takes.
pub struct Times {
    /// The median of the rounds' ratios, ours to tuned.
    pub ratio: f64,
    /// The median of our nanoseconds for a call.
    pub ours: f64,
    /// The median of the tuned call's.
    pub tuned: f64,
}

/// Measures both sides in turns: each round has a batch of either, and every other round the tuned one comes first.
pub fn side_by_side(ours: &mut dyn Work, tuned: &mut dyn Work) -> Times {
    for _ in 0..WARMING {
        batch(ours);
        batch(tuned);
    }
    let mut rounds = Vec::new();
    let start = Instant::now();
    while rounds.len() < LEAST_ROUNDS || start.elapsed() < SPAN {
        rounds.push(if rounds.len() % 2 == 0 {
            let first = batch(ours);
            (first, batch(tuned))
        } else {
            let first = batch(tuned);
            (batch(ours), first)
        });
    }
    Times {
        ratio: median(rounds.iter().map(|(ours, tuned)| ours / tuned)),
        ours: median(rounds.iter().map(|round| round.0)),
        tuned: median(rounds.iter().map(|round| round.1)),
    }
}

/// Nanoseconds for a call of one batch, its states being made ready before the clock starts.
fn batch(work: &mut dyn Work) -> f64 {
    work.prepare();
    let start = Instant::now();
    work.run();
    start.elapsed().as_nanos() as f64 / BATCH as f64
}

fn median(values: impl Iterator<Item = f64>) -> f64 {
    let mut values: Vec<f64> = values.collect();
    values.sort_by(f64::total_cmp);
    values[values.len() / 2]
}
