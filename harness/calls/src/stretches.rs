//! Stretches of plain characters around something awkward, which stands at every place; and lists of calls on chunks of some
//! thousands, drawn from a seed, with pages between whose ranges end inside a stretch.

use crate::lists::{lent, odd};
use crate::ours::{Record, Writer};
use crate::sides::{bytes, Call, Sides};
use crate::writer_sides::WriterSides;
use crate::writes;
use harness::random::Random;
use harness::scripts::alphabet;
use harness::scripts::stretches::{self, page, stretch, thousands, with, Awkward, AROUND, BROKEN, SCRIPTS_COUNT};
use harness::text_input::scanner::needed;

/// Fresh, in text, after CR, in ESC [ and in an OSC string.
const RECORDS: [Record; 5] = [Record::FRESH, in_state(0), in_state(2), in_state(6), in_state(7)];

const fn in_state(state: u32) -> Record {
    Record { state, expect_starter: 0, at_start: 0, last: 0x61, count: 1 }
}

/// Marks are nonstarters. Unassigned: 378, 379, and one of the Devanagari and of the emoji; at 5300 a range ends and the next
/// begins.
const PAGE: [u32; 16] =
    [2, 5, 0x300, 0x350, 0, 0x37A, 0x92A, 0x5300, 0x1F611, 0x34E, 0x36F, 0x377, 0x928, 0x52FF, 0x1F60F, 0x10FFFF];

/// A port may go by pieces of so many characters: longer texts have something awkward about the end of a piece.
const PIECES: [usize; 5] = [64, 128, 256, 512, 1024];

/// Which of the texts are taken: one in so many, of which the seed says the first.
#[derive(Clone, Copy)]
pub struct Step {
    pub step: usize,
    pub seed: u64,
}

impl Step {
    /// Takes one text in so many of those that follow.
    fn taken(self) -> impl FnMut() -> bool {
        let mut left = (self.seed % self.step as u64) as usize;
        move || {
            let taken = left == 0;
            left = if taken { self.step - 1 } else { left - 1 };
            taken
        }
    }
}

/// Scans of each script's texts with each awkward text at every place, from each of the records. The options change with
/// length and place.
pub fn every_place(sides: &mut Sides, step: Step) -> Result<(), String> {
    sides.take_page(bytes(&PAGE));
    let mut taken = step.taken();
    for awkward in Awkward::gather().all() {
        for_every_place(|text, at| {
            for record in RECORDS {
                if taken() {
                    let chunk = with(text, at, awkward);
                    let options = (text.len() + at) as u32 % 8;
                    sides.call(record, Call::Scan(options, &chunk, &[]), 4 * needed(&chunk))?;
                }
            }
            Ok(())
        })?;
    }
    Ok(())
}

/// Writes of the same texts, and of bytes that are no UTF-8 in the place of an awkward text. The mode, and whether a start is
/// expected, change with length and place.
pub fn every_place_written(sides: &mut WriterSides, step: Step) -> Result<(), String> {
    sides.take_page(bytes(&PAGE));
    let mut taken = step.taken();
    let awkward = Awkward::gather();
    let broken = BROKEN.iter().map(|bytes| bytes.to_vec());
    for put_in in awkward.all().map(|text| utf8(text)).chain(broken) {
        for_every_place(|text, at| {
            if taken() {
                let string = [utf8(&text[..at]), put_in.clone(), utf8(&text[at..])].concat();
                let number = (text.len() + at) as u32;
                let record = Writer { expect_starter: number / 3 % 2, ..Writer::fresh(number % 3) };
                sides.call(record, &string, 4 * writes::needed(&record, &string))?;
            }
            Ok(())
        })?;
    }
    Ok(())
}

/// Each script's texts of 0 to 100 plain characters, with each of their places; then its longer texts, with the places about
/// the end of a piece.
fn for_every_place(mut each: impl FnMut(&[u32], usize) -> Result<(), String>) -> Result<(), String> {
    for script in 0..SCRIPTS_COUNT {
        let longest = stretch(script, 0, 2 * PIECES[PIECES.len() - 1]);
        for count in 0..=AROUND {
            for at in 0..=count {
                each(&longest[..count], at)?;
            }
        }
        for piece in PIECES {
            for at in piece - 4..=piece + 4 {
                each(&longest[..piece + 20], at)?;
            }
        }
    }
    Ok(())
}

fn utf8(text: &[u32]) -> Vec<u8> {
    text.iter().filter_map(|c| char::from_u32(*c)).collect::<String>().into_bytes()
}

/// Another page as bytes. A wrong one is there for one call.
fn another_page(random: &mut Random) -> Vec<u8> {
    let page = page(random);
    lent(random, &page)
}

/// Scans of chunks of some thousands from record to record, with rooms at what is needed and one under it.
pub fn long_chunks(sides: &mut Sides, seed: u64, count: u64) -> Result<(), String> {
    let random = &mut Random::new(seed);
    let awkward = Awkward::gather();
    let mut record = Record::FRESH;
    let mut right = false;
    for _ in 0..count {
        if !right || random.once_in(3) {
            right = sides.take_page(another_page(random));
        }
        if random.once_in(4) {
            record = random.pick(&RECORDS);
        }
        let chunk = thousands(random, &awkward, false);
        let room = 4 * alphabet::room(random, needed(&chunk)) as usize + odd(random);
        record = sides.call(record, Call::Scan(random.between(0, 7), &chunk, &[]), room)?;
    }
    Ok(())
}

/// Writes of such chunks in UTF-8, whole, cut off or with bytes that are none.
pub fn long_chunks_written(sides: &mut WriterSides, seed: u64, count: u64) -> Result<(), String> {
    let random = &mut Random::new(seed);
    let awkward = Awkward::gather();
    let mut record = Writer::fresh(0);
    let mut right = false;
    for _ in 0..count {
        if !right || random.once_in(3) {
            right = sides.take_page(another_page(random));
        }
        if record.kept > writes::MOST_KEPT || random.once_in(3) {
            record = Writer::fresh(random.pick(&[0, 0, 1, 2]));
        }
        let text = thousands(random, &awkward, true);
        let string = stretches::bytes(random, &text);
        let room = 4 * alphabet::room(random, writes::needed(&record, &string)) as usize + odd(random);
        record = sides.call(record, &string, room)?;
    }
    Ok(())
}
