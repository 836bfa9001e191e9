//! The generator of awkward text, document 02, A.6. A step to each of the 32 picks, at its edges and between; then so many seeds, no
//! two of them equal, each filled from and stepped back: a few places, now and then some dozens or thousands, as a whole and in two
//! adjoining parts.

use super::{operation, LONG};
use crate::generator;
use crate::random::Random;
use crate::text_output::writer::MOST_PLACES;
use std::iter::once;

/// The bits of a state below those that pick.
const LOW: u32 = 0x7FF_FFFF;

/// One seed in so many is filled from at length, the first of them past those of the stored sample.
const LONG_EACH: usize = 5_000;

/// It is odd: its multiples by different numbers differ modulo 2^32.
const STRIDE: u32 = 0x9E37_79B1;

pub fn script(seed: u64, count: usize) -> impl Iterator<Item = String> {
    let mut random = Random::new(seed);
    let (low, first) = (random.between(0, LOW), random.between(0, u32::MAX));
    let drawn = seeds(first).take(count).enumerate().flat_map(move |(at, seed)| from_seed(&mut random, at, seed));
    picks(low).chain(drawn)
}

/// One step to a state with each of the top five bits: the first, the last, and one with the low bits that are given.
fn picks(low: u32) -> impl Iterator<Item = String> {
    let states = firsts().flat_map(move |first| [first, first | low, first | LOW]);
    states.map(|state| filling(generator::back(state), 1))
}

/// The first state with each of the top five bits.
fn firsts() -> impl Iterator<Item = u32> {
    (0..32).map(|top| top << 27)
}

/// Different seeds: those at the edges of the 32 parts, 0 and the last number among them, then others from `first` on.
fn seeds(first: u32) -> impl Iterator<Item = u32> {
    let edges = || firsts().flat_map(|first| [first.wrapping_sub(1), first, first + 1]);
    let is_edge = |seed: u32| seed.wrapping_add(1) & LOW <= 2;
    let others = (0..=u32::MAX).map(move |at| STRIDE.wrapping_mul(at).wrapping_add(first));
    edges().chain(others.filter(move |seed| !is_edge(*seed)))
}

fn from_seed(random: &mut Random, at: usize, seed: u32) -> impl Iterator<Item = String> {
    let fills = match (at + 1) % LONG_EACH {
        0 => {
            // One in five has the most places that are lent.
            let places = random.between(LONG as u32, 20_000).min(MOST_PLACES as u32);
            in_parts(random, seed, places)
        }
        _ if random.once_in(50) => {
            let places = random.between(0, 40);
            in_parts(random, seed, places)
        }
        _ => vec![filling(seed, random.between(0, 4))],
    };
    fills.into_iter().chain(once(operation("G back", [seed])))
}

/// "filling two adjoining parts, the second from the state the first hands back, equals filling the whole"
fn in_parts(random: &mut Random, seed: u32, places: u32) -> Vec<String> {
    let part = random.between(0, places);
    let between = generator::fill(seed, &mut vec![0; part as usize]);
    vec![filling(seed, part), filling(between, places - part), filling(seed, places)]
}

fn filling(seed: u32, places: u32) -> String {
    operation("G fill", [seed, places])
}
