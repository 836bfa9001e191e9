//! Writes of bytes: every short string, strings around the bounds of UTF-8, every character in every state, a write with
//! each page that has a name; and lists of writes drawn from a seed, each from a fresh writer on.

use crate::lists::{around_named, lent, odd};
use crate::ours::{Writer, MOST_HELD};
use crate::sides::bytes;
use crate::writer_sides::{Outcome, WriterSides};
use harness::leaves::valid_prefix;
use harness::page::LAST_CHARACTER;
use harness::random::Random;
use harness::scripts::alphabet;
use harness::scripts::write::{byte_string, page};

/// Bytes around the bounds of UTF-8's table.
const BOUNDS: [u8; 40] = [
    0x00, 0x09, 0x0A, 0x0D, 0x1A, 0x1B, 0x20, 0x41, 0x5B, 0x6D, 0x7E, 0x7F, 0x80, 0x81, 0x8F, 0x90, 0x9F, 0xA0, 0xBE,
    0xBF, 0xC0, 0xC1, 0xC2, 0xDF, 0xE0, 0xE1, 0xEC, 0xED, 0xEE, 0xEF, 0xF0, 0xF1, 0xF3, 0xF4, 0xF5, 0xF7, 0xF8, 0xFC,
    0xFE, 0xFF,
];

/// Those of them that make up strings of four bytes, many and few.
const MANY: [u8; 24] = [
    0x0A, 0x41, 0x7F, 0x80, 0x8F, 0x90, 0x9F, 0xA0, 0xBF, 0xC0, 0xC1, 0xC2, 0xDF, 0xE0, 0xED, 0xEE, 0xEF, 0xF0, 0xF1,
    0xF3, 0xF4, 0xF5, 0xF8, 0xFF,
];
const FEW: [u8; 10] = [0x41, 0x80, 0x8F, 0x90, 0xBF, 0xED, 0xF0, 0xF3, 0xF4, 0xF5];

/// Marks are nonstarters, all is assigned.
const STRINGS_PAGE: [u32; 8] = [2, 1, 0x300, 0x370, 0, 0x34E, 0x3FF, LAST_CHARACTER];

/// A writer that keeps more than so many characters is opened anew.
pub const MOST_KEPT: usize = 1000;

/// Every string of up to three bytes (short: of up to two, and of three bounds), and of four bounds, to a fresh writer.
pub fn every_string(sides: &mut WriterSides, long: bool) -> Result<(), String> {
    sides.take_page(bytes(&STRINGS_PAGE));
    let all: Vec<u8> = (0..=u8::MAX).collect();
    for length in 0..=2 {
        strings_of(sides, &all, length)?;
    }
    strings_of(sides, if long { &all } else { &BOUNDS }, 3)?;
    strings_of(sides, if long { &MANY } else { &FEW }, 4)
}

/// Every string of so many of the bytes: the digits of its number choose them.
fn strings_of(sides: &mut WriterSides, from: &[u8], length: usize) -> Result<(), String> {
    let mut string = [0; 4];
    for number in 0..from.len().pow(length as u32) {
        let mut digits = number;
        for byte in &mut string[..length] {
            *byte = from[digits % from.len()];
            digits /= from.len();
        }
        sides.call(Writer::fresh(0), &string[..length], 4 * 3 * length)?;
    }
    Ok(())
}

/// Each of the characters alone in each mode and state, with and without a start expected.
pub fn every_state(sides: &mut WriterSides, characters: &[u32]) -> Result<(), String> {
    sides.take_page(bytes(&STRINGS_PAGE));
    let mut escape_sequence = [0; MOST_HELD];
    escape_sequence[..2].copy_from_slice(&[0x1B, 0x5B]);
    for (state, held) in [(0, 0), (1, 0), (2, 0), (3, 1), (4, 2)] {
        for mode in 0..3 {
            for expect_starter in 0..2 {
                let record = Writer { mode, expect_starter, state, kept: 0, held, escape_sequence };
                for c in characters.iter().filter_map(|c| char::from_u32(*c)) {
                    sides.call(record, c.encode_utf8(&mut [0; 4]).as_bytes(), 4 * (held + 3))?;
                }
            }
        }
    }
    Ok(())
}

/// One write with each page by name, and with some bytes more or fewer.
pub fn named_pages(sides: &mut WriterSides) -> Result<(), String> {
    for page in around_named() {
        sides.take_page(page);
        sides.call(Writer::fresh(0), "\u{301}".as_bytes(), 4 * 3)?;
    }
    Ok(())
}

pub fn random_lists(sides: &mut WriterSides, seed: u64, count: u64) -> Result<(), String> {
    let random = &mut Random::new(seed);
    let end = sides.calls() + count;
    let mut record = Writer::fresh(0);
    let mut right = bytes(&[0, 1, 0, 0x377]);
    sides.take_page(right.clone());
    while sides.calls() < end {
        record = match random.below(24) {
            0 | 1 => Writer::fresh(random.pick(&[0, 0, 1, 2, 2])),
            2 => another_page(sides, random, record, &mut right)?,
            // As a flush leaves it.
            3 if matches!(record.state, 0 | 2) => Writer { expect_starter: 1, ..record },
            _ => write(sides, random, record)?,
        };
        if record.kept > MOST_KEPT {
            record = Writer::fresh(record.mode);
        }
    }
    Ok(())
}

/// Another page. A wrong one is there for one call.
fn another_page(sides: &mut WriterSides, random: &mut Random, record: Writer, right: &mut Vec<u8>) -> Outcome {
    let page = page(random);
    let page = lent(random, &page);
    if sides.take_page(page.clone()) {
        *right = page;
        return Ok(record);
    }
    let after = write(sides, random, record);
    sides.take_page(right.clone());
    after
}

/// A write of one string; now and then of ten.
fn write(sides: &mut WriterSides, random: &mut Random, record: Writer) -> Outcome {
    let strings = if random.once_in(50) { 10 } else { 1 };
    let bytes: Vec<u8> = (0..strings).flat_map(|_| byte_string(random, record.mode == 2)).collect();
    let room = alphabet::room(random, needed(&record, &bytes)) as usize;
    sides.call(record, &bytes, 4 * room + odd(random))
}

/// "A write of n characters needs kept + held + 3 × n places." No sum wraps: it stops at the greatest number.
pub fn needed(record: &Writer, bytes: &[u8]) -> usize {
    record.kept.saturating_add(record.held).saturating_add(3 * valid_prefix(bytes).chars().count())
}
