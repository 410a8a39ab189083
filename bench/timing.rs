//! Times calls on what they are lent, several sides in turn.

use crate::office_calls::Way;
use crate::office_cases::{Case, Lent};
use std::hint::black_box;
use std::time::{Duration, Instant};

const ROUNDS: usize = 40;
/// How many copies of what is lent a round goes through.
const COPIES: usize = 16;

/// Nanoseconds for each call of a round. The copies are reset before the clock starts.
fn time(way: Way, case: &Case, copies: &mut [Lent], passes: usize) -> f64 {
    copies.iter_mut().for_each(|copy| copy.clone_from(&case.lent));
    let began = Instant::now();
    for _ in 0..passes {
        for copy in copies.iter_mut() {
            black_box(way.call)(black_box(way.side), case, black_box(copy));
        }
    }
    began.elapsed().as_nanos() as f64 / (passes * copies.len()) as f64
}

/// All sides leave the same behind, so that they are timed at the same work.
fn compare<const N: usize>(name: &str, ways: [Way; N], case: &Case) {
    let left = ways.map(|way| {
        let mut lent = case.lent.clone();
        (way.call)(way.side, case, &mut lent);
        lent
    });
    assert!(left.iter().all(|lent| *lent == left[0]), "{name}: the sides differ");
}

/// The best of rounds that take turns, so that a slow moment of the machine hits all; they go on for some
/// time at least.
pub fn best<const N: usize>(
    name: &str,
    ways: [Way; N],
    changes: bool,
    case: &Case,
    budget: Duration,
) -> [f64; N] {
    compare(name, ways, case);
    let mut copies = vec![case.lent.clone(); COPIES];
    // What a call changes, it gets once in a round; what it leaves as it was, often: the start weighs less.
    let passes = if changes { 1 } else { 32 };
    let mut best = [f64::MAX; N];
    let (began, mut rounds) = (Instant::now(), 0);
    while rounds < ROUNDS || began.elapsed() < budget {
        for (best, way) in best.iter_mut().zip(ways) {
            *best = best.min(time(way, case, &mut copies, passes));
        }
        rounds += 1;
    }
    best
}
