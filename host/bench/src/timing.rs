//! Sides timed in turn, in one run. What is reported is the best of each.

use std::hint::black_box;
use std::time::Instant;

pub const ROUNDS: usize = 41;
/// How long a batch should take.
const BATCH: f64 = 2e6;

/// Nanoseconds a call, over one batch.
pub fn batch<R>(calls: u32, mut run: impl FnMut() -> R) -> f64 {
    let begun = Instant::now();
    for _ in 0..calls {
        black_box(run());
    }
    begun.elapsed().as_nanos() as f64 / f64::from(calls)
}

/// How many calls of so many nanoseconds fill a batch.
pub fn calls_of(nanoseconds: f64) -> u32 {
    (BATCH / nanoseconds).clamp(1.0, 20_000.0) as u32
}

pub fn calls<R>(mut run: impl FnMut() -> R) -> u32 {
    batch(1, &mut run);
    calls_of(batch(3, run))
}

/// The best of each side, which gives the nanoseconds a call of one batch. The sides run in turn, so many rounds.
pub fn in_turn(rounds: usize, sides: &mut [&mut dyn FnMut() -> f64]) -> Vec<f64> {
    let mut best = vec![f64::INFINITY; sides.len()];
    for _ in 0..rounds {
        for (best, side) in best.iter_mut().zip(sides.iter_mut()) {
            *best = best.min(side());
        }
    }
    best
}

/// The best nanoseconds a call of two sides, `calls` calls a batch.
pub fn best_of<R, S>(
    calls: u32,
    mut ours: impl FnMut() -> R,
    mut theirs: impl FnMut() -> S,
) -> (f64, f64) {
    let best =
        in_turn(ROUNDS, &mut [&mut || batch(calls, &mut ours), &mut || batch(calls, &mut theirs)]);
    (best[0], best[1])
}
