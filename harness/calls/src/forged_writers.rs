//! Writers' records that no call returns: modes over 2, flags over 1, states over 4, any held count, any kept count, any
//! number held or kept. Each is as the record that its numbers mean, or refused by 9 or 8.

use crate::ours::{Writer, MOST_HELD};
use crate::sides::bytes;
use crate::writer_sides::{WriterSides, NO_CHARACTERS};
use crate::writes::needed;

/// The modes, and numbers over 2, one with a mode in its low bits.
const MODES: [u32; 6] = [0, 1, 2, 3, 0x102, 0xFFFF_FFFF];

/// False, then numbers that are true.
const FLAGS: [u32; 4] = [0, 1, 2, 0x8000_0000];

/// The states, and numbers over 4, some with a state in their low bits.
const STATES: [u32; 9] = [0, 1, 2, 3, 4, 5, 0x103, 0x8000_0004, 0xFFFF_FFFF];

/// Held counts at what each state can have, one past it, and with such a count in their low bits.
const HELD: [usize; 12] = [0, 1, 2, 3, 63, 64, 65, 66, 0x1_0000_0001, 0x1_0000_0002, 1 << 63, usize::MAX];

/// Each state with held counts that it can have.
const SOUND: [(u32, usize); 12] = [
    (0, 0),
    (1, 0),
    (2, 0),
    (3, 1),
    (4, 2),
    (4, 3),
    (4, 63),
    (4, 64),
    (5, 0),
    (0x103, 0),
    (0x8000_0004, 0),
    (0xFFFF_FFFF, 0),
];

/// Kept counts in the places.
const KEPT: [usize; 3] = [0, 1, 3];

/// Kept counts past the places: four times some of them wraps, and what a write needs with others.
const PAST: [usize; 8] =
    [200, 0x1_0000_0000, 1 << 61, 1 << 62, (1 << 62) + 1, usize::MAX - 5, usize::MAX - 2, usize::MAX];

/// First kept numbers: a start, no starts, and numbers that are no characters, the first of them a nonstarter.
const FIRSTS: [u32; 6] = [0x61, 0x301, 0x200D, NO_CHARACTERS[0], NO_CHARACTERS[2], NO_CHARACTERS[5]];

const STRINGS: [&[u8]; 18] = [
    b"",
    b"a",
    b"\n",
    b"\x1B",
    b"[",
    b"[1m",
    b"1",
    b"m",
    b"1m\n",
    b"mab",
    b"a\x1B[1",
    b"\n\x1B",
    "\u{301}".as_bytes(),
    "\u{378}1".as_bytes(),
    b"a\x7F",
    "\u{FB03}".as_bytes(),
    b"\xFF",
    b"m\xE0\x80",
];

/// Nonstarters: marks, D800, and what stands for it. Unassigned: 378 on.
const PAGE: [u32; 10] = [3, 1, 0x300, 0xD800, 0xFDD0, 0, 0x34E, 0xD800, 0xFDD0, 0x377];

/// So many places are enough, but for the kept counts past them.
const ENOUGH: usize = 160;

/// Each state with each held count, and a few calls with the page and with one that is wrong; then each state with held
/// counts that it can have, and all calls.
pub fn every_record(sides: &mut WriterSides) -> Result<(), String> {
    for page in [bytes(&[0, 0]), bytes(&PAGE)] {
        sides.take_page(page);
        for state in STATES {
            for held in HELD {
                every_flag(sides, state, held, claims)?;
            }
        }
    }
    SOUND.into_iter().try_for_each(|(state, held)| every_flag(sides, state, held, calls))
}

/// The calls from the records of each mode and flag, with and without the characters of an escape.
fn every_flag(
    sides: &mut WriterSides,
    state: u32,
    held: usize,
    calls: fn(&mut WriterSides, Writer) -> Result<(), String>,
) -> Result<(), String> {
    for mode in MODES {
        for expect_starter in FLAGS {
            for escape_sequence in [escape(), no_escape()] {
                calls(sides, Writer { mode, expect_starter, state, kept: 0, held, escape_sequence })?;
            }
        }
    }
    Ok(())
}

/// 64 characters as an escape has them.
fn escape() -> [u32; MOST_HELD] {
    let mut places = [0x3B; MOST_HELD];
    places[..3].copy_from_slice(&[0x1B, 0x5B, 0x31]);
    places
}

/// Numbers that no escape has, `m` and such that are no characters among them.
fn no_escape() -> [u32; MOST_HELD] {
    let mut places = [0x6D; MOST_HELD];
    places[..3].copy_from_slice(&[0x6D, 0x0A, 0x301]);
    places[3..9].copy_from_slice(&NO_CHARACTERS);
    places[MOST_HELD - 2] = NO_CHARACTERS[1];
    places
}

/// A few calls from one record: with places and without any.
fn claims(sides: &mut WriterSides, record: Writer) -> Result<(), String> {
    sides.keep(&[0x61]);
    for kept in [0, 1, usize::MAX] {
        for string in [&b""[..], b"m", b"\xFF"] {
            sides.call(Writer { kept, ..record }, string, 4 * ENOUGH)?;
            sides.call(Writer { kept, ..record }, string, 0)?;
        }
    }
    Ok(())
}

/// The calls from one record with each kept count: those in the places with each first number.
fn calls(sides: &mut WriterSides, record: Writer) -> Result<(), String> {
    for kept in KEPT {
        for first in &FIRSTS[..if kept == 0 { 1 } else { FIRSTS.len() }] {
            sides.keep(&[*first, NO_CHARACTERS[3], 0x0A]);
            writes(sides, Writer { kept, ..record })?;
        }
    }
    for kept in PAST {
        writes(sides, Writer { kept, ..record })?;
    }
    Ok(())
}

/// Each string with enough places, with some bytes more, one byte short, and without any.
fn writes(sides: &mut WriterSides, record: Writer) -> Result<(), String> {
    for string in STRINGS {
        let room = 4 * needed(&record, string).min(ENOUGH);
        for room in [room, room + 3, room.saturating_sub(1), 0] {
            sides.call(record, string, room)?;
        }
    }
    Ok(())
}
