//! Isolation of runs, of up to thousands of characters, with pages that are right and now and then a wrong one: characters at
//! the edges of the page's assigned ranges beside 34F, private use and one another, values that are no characters, too few
//! places, just enough and more.

use super::{alphabet, operation, page_line, pages};
use crate::page::{numbers, Range, LAST_CHARACTER};
use crate::random::Random;

/// The longest run but for those of thousands, and the longest of these: the places that it needs are under the protocol's limit.
const LONG: usize = 40;
const LONGEST: usize = 8_000;

/// Unassigned with most pages, 34F, assigned, private use and its edges.
const CHARACTERS: [u32; 17] = [
    0x378, 0x378, 0x379, 0x34F, 0x34F, 0x61, 0x0A, 0xE000, 0xF8FF, 0xF900, 0xEFFFF, 0xF0000, 0xFFFFD, 0xFFFFE,
    0x100000, 0x10FFFD, 0x10FFFE,
];

pub fn script(random: &mut Random, count: usize) -> Vec<String> {
    let mut edges = CHARACTERS.to_vec();
    let mut lines = Vec::new();
    while lines.len() < count {
        lines.push(match random.below(30) {
            0 => right_page(random, &mut edges),
            // Others, a wrong one and the real one among them.
            1 if random.once_in(4) => page_line(&alphabet::page(random)),
            2 => long_isolation(random, &edges),
            _ => isolation(random, &edges),
        });
    }
    lines
}

/// A page that is right. Its edges are drawn from until the next one.
fn right_page(random: &mut Random, edges: &mut Vec<u32>) -> String {
    let (nonstarters, assigned) = pages::random_right(random);
    *edges = edges_of(&assigned);
    page_line(&numbers(&nonstarters, &assigned))
}

/// The characters at and beside the ends of the ranges.
fn edges_of(ranges: &[Range]) -> Vec<u32> {
    let ends = ranges.iter().flat_map(|(first, last)| [first.saturating_sub(1), *first, *last, last + 1]);
    ends.filter(|c| char::from_u32(*c).is_some()).collect()
}

fn isolation(random: &mut Random, edges: &[u32]) -> String {
    let run = run(random, edges);
    let room = alphabet::room(random, needed(&run));
    operation("L isolate", std::iter::once(room).chain(run))
}

/// "Isolating a run of n characters needs 2 × n + 1 places, an empty one none".
fn needed(run: &[u32]) -> usize {
    if run.is_empty() {
        0
    } else {
        2 * run.len() + 1
    }
}

/// A long run. Now and then it fills all the places that it needs, with most pages; seldom one value is no character.
fn long_isolation(random: &mut Random, edges: &[u32]) -> String {
    let mut run = if random.once_in(4) {
        vec![0x378; alphabet::long_length(random, LONGEST)]
    } else {
        alphabet::long(random, LONGEST, |random| character(random, edges))
    };
    if random.once_in(20) {
        let at = random.below(run.len());
        run[at] = random.pick(&alphabet::NO_CHARACTERS);
    }
    let room = alphabet::close_room(random, needed(&run));
    operation("L isolate", std::iter::once(room).chain(run))
}

/// A run: most are short, some are as long as may be.
fn run(random: &mut Random, edges: &[u32]) -> Vec<u32> {
    let most = random.pick(&[4, 8, 8, 12, LONG]);
    if random.once_in(6) {
        return alphabet::run(random, most + 1);
    }
    let length = random.below(most + 1);
    let mut values: Vec<u32> = (0..length).map(|_| character(random, edges)).collect();
    if length > 0 && random.once_in(40) {
        values[random.below(length)] = random.pick(&alphabet::NO_CHARACTERS);
    }
    values
}

fn character(random: &mut Random, edges: &[u32]) -> u32 {
    match random.below(8) {
        0 | 1 => 0x34F,
        2..=4 => random.pick(edges),
        5 => random.between(0xE000, LAST_CHARACTER),
        _ => random.pick(&CHARACTERS),
    }
}
