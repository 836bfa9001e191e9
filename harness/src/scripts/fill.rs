//! Filling: buffers around 136 bytes, and of up to thousands, with continuation bytes in them, queues that just fit and that do
//! not.

use super::{alphabet, operation, utf8};
use crate::random::Random;

/// The longest buffer, and the longest queue, which are the protocol's limits or just under them.
const MOST_BYTES: usize = 16_384;
const MOST_QUEUE: usize = 8_990;

/// Beforehand: continuation bytes, leads and others, in an order that stops the zeroing early or late.
const PATTERNS: [&str; 9] = ["00", "80", "bf", "ff", "61", "8061", "80bfc0", "8080808080808061", "c3a9"];

pub fn script(random: &mut Random, count: usize) -> Vec<String> {
    (0..count).map(|_| call(random)).collect()
}

fn call(random: &mut Random) -> String {
    let length = match random.below(8) {
        0 => random.pick(&[0, 1, 4, 134, 135, 135]),
        1 | 2 => 136,
        3 if random.once_in(4) => alphabet::long_length(random, MOST_BYTES) as u32,
        3 => random.pick(&[137, 139, 140, 141, 300]),
        _ => random.between(136, 150),
    };
    let queue = queue(random, length as usize);
    operation(&format!("F {length:x} {}", pattern(random)), queue)
}

/// One of the list, or some bytes at the edges of the continuation bytes.
fn pattern(random: &mut Random) -> String {
    if random.once_in(2) {
        return random.pick(&PATTERNS).to_owned();
    }
    (0..random.between(1, 9)).map(|_| random.pick(&["80", "80", "9f", "bf", "bf", "7f", "c0", "00"])).collect()
}

/// Characters of one length or of all, few or about as many as fit.
fn queue(random: &mut Random, room: usize) -> Vec<u32> {
    let kind = random.below(6);
    let most = match kind {
        0 => room / 4 + 4,
        1 => room / 3 + 4,
        2 => room / 2 + 4,
        3 => room + 4,
        4 => room / 2,
        _ => 10,
    };
    let most = most.min(MOST_QUEUE);
    let length = if random.once_in(3) { random.below(most) } else { most - random.below(most.min(8)) };
    let mut values: Vec<u32> = (0..length)
        .map(|_| match kind {
            0 => 0x1F600,
            1 => 0x20AC,
            2 => 0xE9,
            3 => 0x61,
            _ => u32::from(utf8::character(random)),
        })
        .collect();
    if length > 0 && random.once_in(20) {
        values[random.below(length)] = random.pick(&alphabet::NO_CHARACTERS);
    }
    if random.once_in(10) {
        values.truncate(4);
        values.extend(alphabet::run(random, 9));
    }
    values
}
