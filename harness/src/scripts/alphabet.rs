//! What the scripts of calls draw from: characters that matter to the scanner and the writer, values that are no
//! characters, long texts, pages, and numbers of places.

use super::pages;
use crate::page::{numbers, real_numbers};
use crate::random::Random;

/// Values that are no characters, at the edges.
pub const NO_CHARACTERS: [u32; 5] = [0xD800, 0xDFFF, 0x110000, 0x8000_0000, 0xFFFF_FFFF];

/// Line ends, page runs, the parts of escapes, replaced and refused characters, nonstarters, marks, unassigned ones, the signs for
/// units and their letters.
const CHARACTERS: [u32; 49] = [
    0x61, 0x0A, 0x0D, 0x0C, 0x1B, 0x5B, 0x5D, 0x07, 0x18, 0x31, 0x6D, 0x48, 0x20, 0xE9, 0x301, 0x200D, 0xFB03, 0x2028,
    0x2029, 0x85, 0xFEFF, 0x2126, 0x378, 0x379, 0x34F, 0x600, 0x903, 0x1F3FB, 0x10FFFF, 0x7F, 0x40, 0x3F, 0x7E, 0x09,
    0x1A, 0x00, 0x5C, 0x80, 0xE000, 0xFB05, 0x17B4, 0x206A, 0x111C4, 0xF900, 0x212A, 0x212B, 0x3A9, 0x4B, 0xC5,
];

/// One of the characters that matter; now and then any character.
pub fn character(random: &mut Random) -> u32 {
    match random.below(40) {
        0 => random.between(0, 0xD7FF),
        1 => random.between(0xE000, 0x10FFFF),
        2 => random.between(0, 0xA0),
        _ => random.pick(&CHARACTERS),
    }
}

/// A run of fewer than `most` values, now and then with one that is no character.
pub fn run(random: &mut Random, most: usize) -> Vec<u32> {
    let length = random.below(most);
    let mut values: Vec<u32> = (0..length).map(|_| character(random)).collect();
    if length > 0 && random.once_in(50) {
        values[random.below(length)] = random.pick(&NO_CHARACTERS);
    }
    values
}

/// A long text of 8 to `most` characters, lengths of each number of binary digits as often: each character drawn, or a few over
/// and over.
pub fn long(random: &mut Random, most: usize, draw: impl Fn(&mut Random) -> u32) -> Vec<u32> {
    let length = long_length(random, most);
    let drawn = if random.once_in(2) { length } else { 1 + random.below(4) };
    let values: Vec<u32> = (0..drawn).map(|_| draw(random)).collect();
    values.into_iter().cycle().take(length).collect()
}

/// The length of a long text.
pub fn long_length(random: &mut Random, most: usize) -> usize {
    loop {
        let least = 1 << random.between(3, most.ilog2());
        let length = least + random.below(least);
        if length <= most {
            return length;
        }
    }
}

/// A page: that of the start, one that is right, seldom one that is wrong or the real one.
pub fn page(random: &mut Random) -> Vec<u32> {
    match random.below(20) {
        0 => vec![0, 0],
        1 => real_numbers(),
        2..=4 => vec![0, 1, 0, 0x377],
        // 1A unassigned; 61 a nonstarter; marks nonstarters and all assigned; little assigned.
        5 => vec![0, 2, 0, 0x1B, 0x19, 0x377],
        6 => vec![1, 1, 0x61, 0, 0x61, 0x377],
        7..=10 => vec![2, 1, 0x300, 0x370, 0, 0x34E, 0x3FF, 0x10FFFF],
        11 => vec![0, 2, 0x0A, 0x34F, 0x0A, 0x34F],
        // The letters of the signs for units nonstarters, the signs unassigned; the other way round.
        12 | 13 => vec![3, 1, 0x4B, 0xC5, 0x3A9, 0, 0x4B, 0xC5, 0x3A9, 0x2125],
        14 | 15 => vec![1, 4, 0x2126, 0, 0x4C, 0xC6, 0x3AA, 0x212B, 0x4A, 0xC4, 0x3A8, 0x10FFFF],
        _ => {
            let (nonstarters, assigned) = pages::random_right(random);
            numbers(&nonstarters, &assigned)
        }
    }
}

/// A number of places around what is needed: mostly enough.
pub fn room(random: &mut Random, needed: usize) -> u32 {
    let room = match random.below(24) {
        0 => 0,
        1 | 2 => needed.saturating_sub(1),
        3 => needed / 2,
        4..=14 => needed,
        15 => needed + 1,
        _ => needed + random.below(40),
    };
    room as u32
}

/// A number of places for a long text: mostly what is needed, or one under it.
pub fn close_room(random: &mut Random, needed: usize) -> u32 {
    match random.below(8) {
        0..=3 => needed as u32,
        4..=6 => needed.saturating_sub(1) as u32,
        _ => room(random, needed),
    }
}
