//! Every text of some characters, cut in every way; and every character in every state.

use crate::ours::Record;
use crate::sides::{bytes, Call, Outcome, Sides};
use harness::page::LAST_CHARACTER;
use harness::text_input::scanner::needed;

/// The characters that the scanner tells apart, one for each way in which it treats them.
const CHARACTERS: [u32; 19] = [
    0x07,   // ends an OSC string; else replaced
    0x0A,   // a line end, and the second half of one
    0x0C,   // a page run
    0x0D,   // a line end, or the first half of one
    0x18,   // ends every escape but ESC [ [
    0x1B,   // begins an escape, and ends an OSC string without being taken
    0x31,   // 20..3F: goes on in ESC [
    0x5B,   // ESC [ and ESC [ [
    0x5D,   // ESC ]
    0x6D,   // 40..7E: ends ESC and ESC [
    0x7F,   // the last that ESC [ [ takes; past 7E; replaced
    0x85,   // a line end by the option NEL; else replaced
    0xE9,   // above 7F, by the page no start; an end
    0x600,  // a start, and no end
    0x200D, // no start and no end
    0x2028, // a line end by the option LS/PS; else replaced
    0x212B, // replaced by the option for units, by what is no start by the page
    0xFB03, // gives three characters
    0xFEFF, // dropped at the start; else replaced
];

/// C5 and E9 are nonstarters.
const TEXTS_PAGE: [u32; 8] = [2, 1, 0xC5, 0xE9, 0, 0xC5, 0xE9, 0x377];

/// The longest text has at most so many characters.
const LONGEST: usize = 5;

/// All texts of up to `longest` characters from a fresh record, with each setting of the options; all one shorter after an
/// empty chunk; all of up to `pushed` with and without pushes between their chunks.
pub fn every_text(sides: &mut Sides, longest: usize, pushed: usize) -> Result<(), String> {
    sides.take_page(bytes(&TEXTS_PAGE));
    for options in 0..8 {
        let mut walk = Walk { sides, options, pushes: false };
        walk.from(Record::FRESH, longest)?;
        let spent = walk.scan(Record::FRESH, &[])?;
        walk.from(spent, longest - 1)?;
        walk.pushes = true;
        walk.from(Record::FRESH, pushed)?;
    }
    Ok(())
}

struct Walk<'a> {
    sides: &'a mut Sides,
    options: u32,
    pushes: bool,
}

impl Walk<'_> {
    /// Each chunk of up to `left` characters, and after it each text of those that are then left. Every record on the way
    /// is finished as end of file; where there are pushes, texts go on after a push, too.
    fn from(&mut self, record: Record, left: usize) -> Result<(), String> {
        for length in 1..=left {
            for number in 0..CHARACTERS.len().pow(length as u32) {
                let after = self.scan(record, &text(number)[..length])?;
                self.sides.call(after, Call::Finish(1), 4 * 2)?;
                self.from(after, left - length)?;
                if self.pushes {
                    let pushed = self.sides.call(after, Call::Finish(0), 4 * 2)?;
                    self.from(pushed, left - length)?;
                }
            }
        }
        Ok(())
    }

    fn scan(&mut self, record: Record, chunk: &[u32]) -> Outcome {
        self.sides.call(record, Call::Scan(self.options, chunk, &[]), 4 * needed(chunk))
    }
}

/// The text whose number this is: its digits are the characters.
fn text(mut number: usize) -> [u32; LONGEST] {
    [(); LONGEST].map(|()| {
        let c = CHARACTERS[number % CHARACTERS.len()];
        number /= CHARACTERS.len();
        c
    })
}

/// Marks are nonstarters, all is assigned.
const STATES_PAGE: [u32; 8] = [2, 1, 0x300, 0x370, 0, 0x34E, 0x3FF, LAST_CHARACTER];

/// Each of the characters alone in each state, with each setting of flags and options; then each as the last one, finished in
/// each state.
pub fn every_state(sides: &mut Sides, characters: &[u32]) -> Result<(), String> {
    sides.take_page(bytes(&STATES_PAGE));
    for state in 0..=8 {
        for flags in 0..4 {
            let record = Record { state, expect_starter: flags & 1, at_start: flags >> 1, ..Record::FRESH };
            for c in characters {
                for options in 0..8 {
                    sides.call(record, Call::Scan(options, &[*c], &[]), 4 * 4)?;
                }
                for end_of_file in 0..2 {
                    sides.call(Record { last: *c, ..record }, Call::Finish(end_of_file), 4 * 2)?;
                }
            }
        }
    }
    Ok(())
}

/// All characters.
pub fn characters() -> Vec<u32> {
    (0..=LAST_CHARACTER).filter(|c| char::from_u32(*c).is_some()).collect()
}

/// The characters around all that the scanner asks for, and some of the replaced ones.
pub fn bounds() -> Vec<u32> {
    let around =
        [0..0x400, 0x600..0x606, 0x2000..0x2070, 0x2125..0x212D, 0xFAFF..0xFB07, 0xFEF0..0xFF01, 0xFFF0..0x10000];
    around.into_iter().flatten().chain([0x10FFFE, 0x10FFFF]).collect()
}
