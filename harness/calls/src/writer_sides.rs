//! One write of bytes on both sides, and the comparison: the refusal with its values, the bytes used, the characters
//! handed out, the record, and every byte of the queue, with some past it.

use crate::ours::{self, WriteReply, Writer, MOST_HELD};
use crate::sides::{bytes, numbers, Lent, BLANK, MOST_BYTES, NUMBERS, PAST};
use harness::text_output::writer::{self, Mode, Record, Refusal};
use harness::words::{bytes_list, list};

/// Numbers that are no characters, as a forged record may hold or keep them. The oracle has a noncharacter for each, which
/// no write hands out.
pub const NO_CHARACTERS: [u32; 6] = [0xD800, 0xDFFF, 0x110000, 0x0100_200D, 0xEEEE_EEEE, 0xFFFF_FFFF];
const FIRST_STAND_IN: u32 = 0xFDD0;

/// The record after a call, or the difference.
pub type Outcome = Result<Writer, String>;

pub struct WriterSides {
    oracle: writer::Writer,
    page: Lent,
    queue: Box<[u8]>,
    expected: Box<[u8]>,
    /// How many calls were refused by each number, those by 0 being accepted.
    pub answers: [u64; NUMBERS],
}

impl WriterSides {
    pub fn new() -> Self {
        let queue = vec![BLANK; MOST_BYTES + PAST].into_boxed_slice();
        let (oracle, _) = writer::Writer::open(Mode::Plain);
        Self { oracle, page: Lent::default(), expected: queue.clone(), queue, answers: [0; NUMBERS] }
    }

    /// Takes the page of the calls that follow. Whether it is accepted.
    pub fn take_page(&mut self, bytes: Vec<u8>) -> bool {
        self.page = Lent::take(bytes);
        self.page.accepted
    }

    /// Puts numbers into the queue's first places, as kept ones.
    pub fn keep(&mut self, kept: &[u32]) {
        self.queue[..4 * kept.len()].copy_from_slice(&bytes(kept));
    }

    /// A call with so many bytes of queue, of which all past the kept ones are blank. The record after it is the port's.
    pub fn call(&mut self, record: Writer, bytes: &[u8], room: usize) -> Outcome {
        let end = room + PAST;
        let kept = record.kept.saturating_mul(4).min(end);
        self.queue[kept..end].fill(BLANK);
        self.expected[..end].copy_from_slice(&self.queue[..end]);
        let mut expected = self.expect(&record, bytes, room / 4);
        let reply = ours::write(record, &self.page.bytes, bytes, &mut self.queue[..room]);
        if begins_several(&record, bytes) {
            self.forgive(&mut expected.writer, &reply.writer);
        }
        if reply != expected || self.queue[..end] != self.expected[..end] {
            return Err(self.difference(&record, bytes, room, &expected, &reply));
        }
        self.answers[reply.refused as usize] += 1;
        Ok(reply.writer)
    }

    /// The oracle's answer; the queue as it must be.
    fn expect(&mut self, record: &Writer, bytes: &[u8], places: usize) -> WriteReply {
        let before = self.meaning(record, places);
        // Where the kept ones pass the places, the oracle has fewer of them.
        let missing = record.kept - before.kept.len();
        self.oracle.resume(&before);
        let claims = self.oracle.claim(u32::try_from(record.held).unwrap_or(u32::MAX));
        let answer = self.oracle.write_bytes(self.page.accepted, places, bytes);
        let after = self.oracle.snapshot();
        if record.kept <= places {
            self.fill(answer.as_ref().map_or(&after.kept, |(_, out)| out));
        }
        let [refused, abandon, reason, character, count, first, second, third] =
            answer.as_ref().err().map(values).unwrap_or_default();
        let (used, written) = answer.map_or((0, 0), |(used, out)| (used, out.len()));
        let writer = Writer {
            mode: mode_number(after.mode),
            expect_starter: u32::from(after.expect_starter),
            state: after.state,
            kept: after.kept.len() + missing,
            held: if claims { record.held } else { after.held },
            escape_sequence: with_escape(record.escape_sequence, &after),
        };
        WriteReply { refused, abandon, reason, character, count, first, second, third, used, written, writer }
    }

    /// The record that the numbers mean. A kept count that passes the places is as one past them.
    fn meaning(&self, record: &Writer, places: usize) -> Record {
        let kept = if record.kept > places {
            vec!['a'; places + 1]
        } else {
            numbers(&self.queue[..4 * record.kept]).into_iter().map(stand_in).collect()
        };
        Record {
            mode: mode(record.mode),
            expect_starter: record.expect_starter != 0,
            state: record.state,
            kept,
            held: record.held,
            escape_sequence: record.escape_sequence.into_iter().take(record.held).map(stand_in).collect(),
        }
    }

    /// Puts the kept or handed-out characters into the first places of the queue as it must be.
    fn fill(&mut self, characters: &[char]) {
        for (place, c) in self.expected.chunks_exact_mut(4).zip(characters) {
            place.copy_from_slice(&stood_for(*c).to_le_bytes());
        }
    }

    /// Where a call had several escapes, the oracle knows the last: a place past it may have a character of another.
    fn forgive(&self, expected: &mut Writer, ours: &Writer) {
        let known = known(&self.oracle.snapshot()).len();
        for (expected, ours) in expected.escape_sequence.iter_mut().zip(ours.escape_sequence).skip(known) {
            if matches!(ours, 0x1B | 0x5B | 0x20..=0x3F) {
                *expected = ours;
            }
        }
    }

    fn difference(
        &self,
        record: &Writer,
        bytes: &[u8],
        room: usize,
        expected: &WriteReply,
        reply: &WriteReply,
    ) -> String {
        let shown = |reply: &WriteReply, queue: &[u8]| format!("{reply:x?} {}", list(numbers(&queue[..room + PAST])));
        format!(
            "DIFFERENCE\n  call:   write {} room={room} bytes\n  from:   {record:x?}\n  page:   {}\n  oracle: {}\n  \
             ours:   {}",
            bytes_list(bytes),
            self.page.shown(),
            shown(expected, &self.expected),
            shown(reply, &self.queue)
        )
    }

    /// How many calls were compared.
    pub fn calls(&self) -> u64 {
        self.answers.iter().sum()
    }
}

/// A number over 2 is as 0.
fn mode(number: u32) -> Mode {
    match number {
        1 => Mode::Crlf,
        2 => Mode::Color,
        _ => Mode::Plain,
    }
}

fn mode_number(mode: Mode) -> u32 {
    match mode {
        Mode::Plain | Mode::Bom => 0,
        Mode::Crlf => 1,
        Mode::Color => 2,
    }
}

/// The character that the oracle has for a number.
fn stand_in(number: u32) -> char {
    let place = NO_CHARACTERS.iter().position(|other| *other == number);
    let number = place.map_or(number, |place| FIRST_STAND_IN + place as u32);
    char::from_u32(number).expect("a character, or one of the others")
}

/// The number that a character of the oracle's stands for.
fn stood_for(c: char) -> u32 {
    let number = u32::from(c);
    let place = number.checked_sub(FIRST_STAND_IN).map_or(usize::MAX, |place| place as usize);
    NO_CHARACTERS.get(place).copied().unwrap_or(number)
}

/// The refusal's number, whether the caller is to abandon, and of a 4 the reason, its character and its replacements.
fn values(refusal: &Refusal) -> [u32; 8] {
    let mut values = [refusal.number, u32::from(refusal.abandon), 0, 0, 0, 0, 0, 0];
    if let Some(reason) = &refusal.reason {
        values[2] = reason.place;
        values[3] = reason.carried.map_or(0, u32::from);
        values[4] = reason.replacements.len() as u32;
        for (value, c) in values[5..].iter_mut().zip(&reason.replacements) {
            *value = u32::from(*c);
        }
    }
    values
}

/// The places of an escape after a call that had at most one: the other places are as they were.
fn with_escape(mut places: [u32; MOST_HELD], after: &Record) -> [u32; MOST_HELD] {
    for (place, c) in places.iter_mut().zip(known(after)) {
        *place = stood_for(*c);
    }
    places
}

/// The characters that the last escape held. The oracle keeps the `m` that ended one, which the port does not hold.
fn known(after: &Record) -> &[char] {
    match after.escape_sequence.as_slice() {
        [held @ .., 'm'] if after.held == 0 => held,
        held => held,
    }
}

/// Whether the call may have more than one escape.
fn begins_several(record: &Writer, bytes: &[u8]) -> bool {
    let begun = usize::from(matches!(record.state, 3 | 4));
    begun + bytes.iter().filter(|byte| **byte == 0x1B).count() > 1
}
