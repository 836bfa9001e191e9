//! Records that no call returns: states over 8, flags over 1, any last number, any count. Each is as the record that its
//! numbers mean.

use crate::ours::Record;
use crate::sides::{bytes, Call, Sides};
use harness::text_input::scanner::needed;

/// The states, and numbers over 8, some with a state in their low bits.
const STATES: [u32; 15] = [0, 1, 2, 3, 4, 5, 6, 7, 8, 9, 0x102, 0x10003, 0x7FFF_FFFF, 0x8000_0007, 0xFFFF_FFFF];

/// False, then numbers that are true.
const FLAGS: [u32; 5] = [0, 1, 2, 0x100, 0x8000_0000];

/// Ends, others, and numbers that are no characters, one with 200D in its low bits.
const LASTS: [u32; 9] = [0x0A, 0x61, 0x301, 0x200D, 0x600, 0xD800, 0x110000, 0x0100_200D, 0xFFFF_FFFF];

const COUNTS: [u32; 4] = [0, 1, 0xFFFF_FFFD, 0xFFFF_FFFF];

/// All settings, and bits without a meaning.
const OPTIONS: [u32; 10] = [0, 1, 2, 3, 4, 5, 6, 7, 8, 0xFFFF_FFF8];

const CHUNKS: [&[u32]; 13] = [
    &[],
    &[0x0A],
    &[0x0C],
    &[0x18],
    &[0x1B],
    &[0x5B],
    &[0x61],
    &[0x301],
    &[0xFEFF],
    &[0x85, 0x2028],
    &[0x2126, 0x212B],
    &[0x07, 0x200D],
    &[0x61, 0xD800],
];

/// Numbers of bytes around two places.
const ROOMS: [usize; 7] = [0, 3, 4, 7, 8, 11, 12];

pub fn every_record(sides: &mut Sides) -> Result<(), String> {
    sides.take_page(bytes(&[2, 1, 0x300, 0x3A9, 0, 0x301, 0x3A9, 0x377]));
    for state in STATES {
        for expect_starter in FLAGS {
            for at_start in FLAGS {
                for last in LASTS {
                    for count in COUNTS {
                        calls(sides, Record { state, expect_starter, at_start, last, count })?;
                    }
                }
            }
        }
    }
    Ok(())
}

/// The calls from one record: each chunk with enough places and, in turn, one byte short; each finish.
fn calls(sides: &mut Sides, record: Record) -> Result<(), String> {
    for options in OPTIONS {
        for chunk in CHUNKS {
            let room = 4 * needed(chunk);
            sides.call(record, Call::Scan(options, chunk, &[0x0A, 0, 0]), room)?;
            sides.call(record, Call::Scan(options, chunk, &[]), room.saturating_sub(1))?;
        }
    }
    for end_of_file in [0, 1, 2, 0x100, 0x8000_0000] {
        for room in ROOMS {
            sides.call(record, Call::Finish(end_of_file), room)?;
        }
    }
    Ok(())
}
