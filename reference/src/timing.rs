//! How long a piece of work takes.

use std::hint::black_box;
use std::time::{Duration, Instant};

const ROUNDS: usize = 25;
const ROUND: Duration = Duration::from_millis(4);

/// Nanoseconds that `work` takes: the least of the rounds.
pub fn time<T>(mut work: impl FnMut() -> T) -> f64 {
    let repetitions = repetitions(&mut work);
    (0..ROUNDS).map(|_| round(&mut work, repetitions)).fold(f64::MAX, f64::min)
}

/// Nanoseconds that `work` takes on each of the cases. Each round has all of them, so that a slow moment of the machine
/// meets them all alike.
pub fn times<T, const N: usize>(mut work: impl FnMut(usize) -> T) -> [f64; N] {
    let repetitions: [usize; N] = std::array::from_fn(|case| repetitions(&mut || work(case)));
    let mut least = [f64::MAX; N];
    for _ in 0..ROUNDS {
        for case in 0..N {
            least[case] = least[case].min(round(&mut || work(case), repetitions[case]));
        }
    }
    least
}

/// How often `work` is repeated in a round.
fn repetitions<T>(work: &mut impl FnMut() -> T) -> usize {
    let mut repetitions = 1;
    while repetitions < 1 << 24 && round(work, repetitions) * (repetitions as f64) < ROUND.as_nanos() as f64 {
        repetitions *= 2;
    }
    repetitions
}

fn round<T>(work: &mut impl FnMut() -> T, repetitions: usize) -> f64 {
    let start = Instant::now();
    (0..repetitions).for_each(|_| drop(black_box(work())));
    start.elapsed().as_nanos() as f64 / repetitions as f64
}
