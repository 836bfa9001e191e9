//! The least time of many rounds.

use crate::leaves::{Chunk, Leaf, Lent, Side};
use std::hint::black_box;
use std::time::{Duration, Instant};

/// Rounds are made for so long, and at least so many of them.
const SPAN: Duration = Duration::from_millis(600);
const ROUNDS: usize = 10;

/// ns, ours and the Rust's.
pub type Times = [f64; 2];

/// The sum over the groups of the least ns in which a side takes all chunks of a group. The two sides take turns. A round
/// goes over all groups: the processor does not learn the branches of one of them by heart.
pub fn least(leaf: &Leaf, lent: &mut Lent, groups: &mut [Vec<Chunk>]) -> Times {
    let mut best = vec![[f64::MAX; 2]; groups.len()];
    let start = Instant::now();
    let mut rounds = 0;
    while rounds < ROUNDS || start.elapsed() < SPAN {
        rounds += 1;
        for (chunks, best) in groups.iter_mut().zip(&mut best) {
            for (best, side) in best.iter_mut().zip([leaf.ours, leaf.rust]) {
                *best = best.min(timed(side, lent, chunks));
            }
        }
    }
    let clock = own();
    best.iter().fold([0.0; 2], |sum, best| [0, 1].map(|side| sum[side] + (best[side] - clock).max(0.0)))
}

fn timed(side: Side, lent: &mut Lent, chunks: &mut [Chunk]) -> f64 {
    let start = Instant::now();
    for chunk in chunks {
        black_box(side(lent, black_box(chunk)));
    }
    start.elapsed().as_nanos() as f64
}

/// What the clock itself takes.
fn own() -> f64 {
    (0..100).map(|_| Instant::now().elapsed().as_nanos() as f64).fold(f64::MAX, f64::min)
}
