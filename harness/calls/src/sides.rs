//! One call on both sides, and the comparison: the refusal, the number written, the record, and every byte of the queue,
//! with some past it.

use crate::ours::{self, Record, Reply};
use harness::page::Page;
use harness::properties;
use harness::text_input::scanner::{self, Options, Scanner};
use harness::words::list;

/// The queue has at most so many bytes.
pub const MOST_BYTES: usize = 4 * 20_000;

/// So many bytes past the queue are compared too: nothing may be written there.
pub const PAST: usize = 8;

/// What every byte of the queue is before a call.
pub const BLANK: u8 = 0xEE;

/// The numbers of the refusals that a call gives are below this one.
pub const NUMBERS: usize = 11;

/// The record after a call, or the difference.
pub type Outcome = Result<Record, String>;

/// A call without its record and its page.
#[derive(Clone, Copy)]
pub enum Call<'a> {
    /// Options, the characters, and the bytes past the last whole character.
    Scan(u32, &'a [u32], &'a [u8]),
    /// As end of file where it is not 0.
    Finish(u32),
}

/// The page of the calls, as bytes.
#[derive(Default)]
pub struct Lent {
    pub bytes: Vec<u8>,
    pub accepted: bool,
}

impl Lent {
    /// The oracle answers from it, if it is accepted. One whose length is no multiple of four is wrong.
    pub fn take(bytes: Vec<u8>) -> Self {
        let whole = bytes.len() % 4 == 0;
        let page = Page::read(&numbers(&bytes)).filter(|_| whole);
        let accepted = page.is_some();
        properties::answer_from(page);
        Self { bytes, accepted }
    }

    /// Its length and its numbers.
    pub fn shown(&self) -> String {
        format!("{} bytes, {}", self.bytes.len(), list(numbers(&self.bytes)))
    }
}

pub struct Sides {
    oracle: Scanner,
    page: Lent,
    chunk: Vec<u8>,
    queue: Box<[u8]>,
    expected: Box<[u8]>,
    /// How many calls were refused by each number, those by 0 being accepted.
    pub answers: [u64; NUMBERS],
}

impl Sides {
    pub fn new() -> Self {
        let queue = vec![BLANK; MOST_BYTES + PAST].into_boxed_slice();
        Self {
            oracle: Scanner::default(),
            page: Lent::default(),
            chunk: Vec::new(),
            expected: queue.clone(),
            queue,
            answers: [0; NUMBERS],
        }
    }

    /// Takes the page of the calls that follow. Whether it is accepted.
    pub fn take_page(&mut self, bytes: Vec<u8>) -> bool {
        self.page = Lent::take(bytes);
        self.page.accepted
    }

    /// A call with so many bytes of queue. The record after it is the port's.
    pub fn call(&mut self, record: Record, call: Call, room: usize) -> Outcome {
        let expected = self.expect(record, call, room);
        self.queue[..room + PAST].fill(BLANK);
        let reply = self.ours(record, call, room);
        if reply != expected || self.queue[..room + PAST] != self.expected[..room + PAST] {
            return Err(self.difference(record, call, room, expected, reply));
        }
        self.answers[reply.refused as usize] += 1;
        Ok(reply.record)
    }

    fn ours(&mut self, record: Record, call: Call, room: usize) -> Reply {
        let queue = &mut self.queue[..room];
        match call {
            Call::Scan(options, characters, odd) => {
                self.chunk.clear();
                self.chunk.extend(characters.iter().flat_map(|c| c.to_le_bytes()));
                self.chunk.extend(odd);
                ours::scan(record, &self.page.bytes, options, &self.chunk, queue)
            }
            Call::Finish(end_of_file) => ours::finish(record, end_of_file, queue),
        }
    }

    /// The oracle's answer; the queue as it must be.
    fn expect(&mut self, record: Record, call: Call, room: usize) -> Reply {
        self.oracle.put(meaning(record));
        let places = room / 4;
        let answer = match call {
            Call::Scan(options, characters, _) => {
                self.oracle.scan(self.page.accepted, Options::of(options), places, characters)
            }
            Call::Finish(end_of_file) => self.oracle.finish(end_of_file != 0, places),
        };
        let written = answer.unwrap_or(0);
        self.expected[..room + PAST].fill(BLANK);
        for (place, c) in self.expected.chunks_exact_mut(4).zip(self.oracle.tail(written)) {
            place.copy_from_slice(&u32::from(c).to_le_bytes());
        }
        let after = self.oracle.record();
        Reply {
            refused: answer.err().unwrap_or(0),
            written,
            record: Record {
                state: after.state,
                expect_starter: u32::from(after.expect_starter),
                at_start: u32::from(after.at_start),
                last: if written == 0 { record.last } else { u32::from(after.last) },
                count: after.count,
            },
        }
    }

    fn difference(&self, record: Record, call: Call, room: usize, expected: Reply, reply: Reply) -> String {
        let call = match call {
            Call::Scan(options, characters, odd) => {
                format!("scan options={options:x} chunk={} odd={odd:02x?}", list(characters.iter().copied()))
            }
            Call::Finish(end_of_file) => format!("finish end_of_file={end_of_file:x}"),
        };
        let shown = |reply: Reply, queue: &[u8]| format!("{reply:x?} {}", list(numbers(&queue[..room + PAST])));
        format!(
            "DIFFERENCE\n  call:   {call} room={room} bytes\n  from:   {record:x?}\n  page:   {}\n  \
             oracle: {}\n  ours:   {}",
            self.page.shown(),
            shown(expected, &self.expected),
            shown(reply, &self.queue)
        )
    }

    /// How many calls were compared.
    pub fn calls(&self) -> u64 {
        self.answers.iter().sum()
    }
}

/// The record that the numbers mean. A last one that is no character is an end, as 0A is: no list has it.
fn meaning(record: Record) -> scanner::Record {
    scanner::Record {
        state: record.state,
        expect_starter: record.expect_starter != 0,
        at_start: record.at_start != 0,
        last: char::from_u32(record.last).unwrap_or('\n'),
        count: record.count,
    }
}

/// Four bytes for each number, the low one first.
pub fn bytes(numbers: &[u32]) -> Vec<u8> {
    numbers.iter().flat_map(|number| number.to_le_bytes()).collect()
}

/// The numbers that the whole fours are.
pub fn numbers(bytes: &[u8]) -> Vec<u32> {
    bytes.chunks_exact(4).map(|four| u32::from_le_bytes([four[0], four[1], four[2], four[3]])).collect()
}
