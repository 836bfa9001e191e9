//! Lists of calls on a scanner: chunks of every cut and of up to thousands of characters, options that change, finishes, refusals
//! between them, and counts at the limit.

use super::signs::SIGNS;
use super::{alphabet, operation, page_line, pages};
use crate::page::Page;
use crate::random::Random;
use crate::text_input::scanner::needed;

/// The longest chunk: the places that it needs are under the protocol's limit.
pub const LONGEST: usize = 5_400;

pub fn script(random: &mut Random, count: usize) -> Vec<String> {
    let mut lines = vec!["S new".to_owned()];
    while lines.len() < count {
        lines.extend(calls(random));
    }
    lines.truncate(count);
    lines
}

fn calls(random: &mut Random) -> Vec<String> {
    match random.below(60) {
        0..=4 => vec!["S new".to_owned()],
        5 => pages_between(random),
        6 => count_at_limit(random),
        7 => vec![format!("S count {:x}", random.below(8))],
        8..=14 => vec![finish(random)],
        15 => long_scan(random),
        16 => fullest(random),
        _ => {
            let chunk = chunk(random);
            vec![scan(random, &chunk)]
        }
    }
}

/// A page, a wrong one more often than elsewhere.
pub fn page(random: &mut Random) -> Vec<u32> {
    if random.once_in(4) {
        pages::random_page(random)
    } else {
        alphabet::page(random)
    }
}

/// A page. A wrong one is current for one call.
fn pages_between(random: &mut Random) -> Vec<String> {
    let page = page(random);
    let mut lines = vec![page_line(&page)];
    if Page::read(&page).is_none() {
        let chunk = chunk(random);
        lines.extend([scan(random, &chunk), "P 0 1 0 377".to_owned()]);
    }
    lines
}

/// A count that a chunk takes to its limit or one past it, and the chunk.
pub fn at_limit(random: &mut Random) -> (u32, Vec<u32>) {
    let rest = if random.once_in(4) { long_chunk(random) } else { chunk(random) };
    let chunk = [vec![0x61], rest].concat();
    (u32::MAX - chunk.len() as u32 + random.between(0, 1), chunk)
}

fn count_at_limit(random: &mut Random) -> Vec<String> {
    let (count, chunk) = at_limit(random);
    vec![format!("S count {count:x}"), scan(random, &chunk), format!("S count {:x}", random.below(8))]
}

/// A long chunk, seldom with a value that is no character.
fn long_scan(random: &mut Random) -> Vec<String> {
    let mut chunk = long_chunk(random);
    if random.once_in(20) {
        let at = random.below(chunk.len());
        chunk[at] = random.pick(&alphabet::NO_CHARACTERS);
    }
    vec![scan_with(random, &chunk, alphabet::close_room)]
}

/// A long chunk that fills all the places that it needs: after 0D, three characters for each.
fn fullest(random: &mut Random) -> Vec<String> {
    let chunk = vec![0xFB03; alphabet::long_length(random, LONGEST)];
    vec!["S scan 0 4 d".to_owned(), scan_with(random, &chunk, alphabet::close_room)]
}

pub fn long_chunk(random: &mut Random) -> Vec<u32> {
    let own = random.once_in(3);
    alphabet::long(random, LONGEST - 1, |random| if own { random.pick(&OWN) } else { alphabet::character(random) })
}

pub fn finish(random: &mut Random) -> String {
    let how = random.pick(&["p", "e"]);
    format!("S fin {how} {:x}", random.pick(&[0, 1, 2, 2, 2, 2, 3, 9]))
}

fn scan(random: &mut Random, chunk: &[u32]) -> String {
    scan_with(random, chunk, alphabet::room)
}

/// A scan that lends places around what is needed.
pub fn scan_with(random: &mut Random, chunk: &[u32], room: fn(&mut Random, usize) -> u32) -> String {
    let options = random.between(0, 7);
    let room = room(random, needed(chunk));
    operation("S scan", [options, room].into_iter().chain(chunk.iter().copied()))
}

/// The scanner's own characters, and bounds of the ranges that it asks for.
const OWN: [u32; 22] = [
    0x0A, 0x0D, 0x0C, 0x1B, 0x5B, 0x5D, 0x07, 0x18, 0x1F, 0x20, 0x31, 0x3F, 0x40, 0x6D, 0x7E, 0x7F, 0x80, 0xFEFF, 0x85,
    0x2028, 0x2029, 0x61,
];

pub fn chunk(random: &mut Random) -> Vec<u32> {
    match random.below(9) {
        // An escape with something in it, whole or open.
        0 => {
            let open: &[u32] =
                random.pick(&[&[0x1B][..], &[0x1B, 0x5B], &[0x1B, 0x5B, 0x5B], &[0x1B, 0x5D], &[0x1B, 0x5B, 0x31]]);
            [open, &alphabet::run(random, 4)].concat()
        }
        // One character, which keeps a state open over many chunks.
        1 => vec![random.pick(&OWN)],
        2 | 3 => (0..random.below(6)).map(|_| random.pick(&OWN)).collect(),
        4 => [vec![0xFEFF], alphabet::run(random, 4)].concat(),
        // A sign for a unit first, before which a start may be expected.
        5 => [vec![random.pick(&SIGNS)], alphabet::run(random, 4)].concat(),
        _ => alphabet::run(random, 9),
    }
}
