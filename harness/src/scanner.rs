//! Scan, finish and filling of document 01 over the original's `TextInput`, of which this is a child module, with asking and
//! committing of document 02 (A.4) and its option for the signs for units (A.5). The conversions are `process_raw_string` and
//! `read_with_status`; the refusals and the count are the documents'.

use super::{State, TextInput};
use crate::words::characters;
use crate::{is_basic_text_end, Bufferable, ReadLayered, ReadStrLayered, Status, TextReader};
use std::fmt;
use std::io::{self, Read};

/// A stream that has no bytes and says one status.
struct Source(Status);

impl Read for Source {
    fn read(&mut self, _: &mut [u8]) -> io::Result<usize> {
        Ok(0)
    }
}

impl Bufferable for Source {
    fn abandon(&mut self) {}
}

impl ReadLayered for Source {
    fn read_with_status(&mut self, _: &mut [u8]) -> io::Result<(usize, Status)> {
        Ok((0, self.0))
    }
}

impl ReadStrLayered for Source {}

/// A scanner's record in numbers.
#[derive(Clone, Copy)]
pub struct Record {
    /// As the replay protocol counts the states.
    pub state: u32,
    pub expect_starter: bool,
    pub at_start: bool,
    /// The last character ever appended; before the first it is 0A, which is an end.
    pub last: char,
    /// "The record holds a 32-bit count of characters taken, dropped ones included."
    pub count: u32,
}

impl fmt::Display for Record {
    /// As the replay protocol writes it.
    fn fmt(&self, f: &mut fmt::Formatter<'_>) -> fmt::Result {
        let [starts, bom, end] = [self.expect_starter, self.at_start, is_basic_text_end(self.last)].map(u8::from);
        write!(f, "st={} es={starts} bom={bom} end={end} cnt={:x}", self.state, self.count)
    }
}

/// The options of a call.
#[derive(Clone, Copy, Default)]
pub struct Options {
    pub nel: bool,
    pub lsps: bool,
    /// "replacement turns U+2126 into U+03A9, U+212A into U+004B and U+212B into U+00C5"
    pub units: bool,
}

impl Options {
    /// By their number: 1 NEL, 2 LS/PS, 4 units, added. Other bits have no meaning.
    pub fn of(number: u32) -> Self {
        Self { nel: number & 1 != 0, lsps: number & 2 != 0, units: number & 4 != 0 }
    }

    fn put(self, input: &mut TextInput) {
        input.nel_compatibility = self.nel;
        input.lsps_compatibility = self.lsps;
        input.units_compatibility = self.units;
    }
}

/// The states in the order of their numbers.
const STATES: [State; 9] = [
    State::Ground(false),
    State::Ground(true),
    State::Cr,
    State::Ff,
    State::Esc,
    State::CsiStart,
    State::Csi,
    State::Osc,
    State::Linux,
];

/// A scanner. Its queue is kept, so that the last character ever appended is known.
pub struct Scanner {
    reader: TextReader<Source>,
    pub count: u32,
}

impl Default for Scanner {
    fn default() -> Self {
        Self { reader: reader(Status::Active), count: 0 }
    }
}

fn reader(status: Status) -> TextReader<Source> {
    TextReader { input: TextInput::new(), inner: Source(status) }
}

impl Scanner {
    /// Takes a chunk, and answers how many characters it appends. "Order: 2, 1, 10, 8."
    pub fn scan(&mut self, page: bool, options: Options, room: usize, chunk: &[u32]) -> Result<usize, u32> {
        self.refuse(page, chunk)?;
        if room < needed(chunk) {
            return Err(8);
        }
        Ok(self.take(options, chunk))
    }

    /// How many characters a chunk would append: as many as it appends to a copy. "Asking changes nothing and is refused by 2, 1
    /// and 10 as a scan is."
    pub fn ask(&self, page: bool, options: Options, chunk: &[u32]) -> Result<usize, u32> {
        self.refuse(page, chunk)?;
        let mut copy = Self::default();
        copy.put(self.record());
        Ok(copy.take(options, chunk))
    }

    /// Takes a chunk as a scan does. "8 stands there for fewer places than the true number."
    pub fn commit(&mut self, page: bool, options: Options, room: usize, chunk: &[u32]) -> Result<usize, u32> {
        if room < self.ask(page, options, chunk)? {
            return Err(8);
        }
        Ok(self.take(options, chunk))
    }

    /// The refusals by 2, 1 and 10.
    fn refuse(&self, page: bool, chunk: &[u32]) -> Result<(), u32> {
        if !page {
            return Err(2);
        }
        characters(chunk).ok_or(1u32)?;
        // "10 the count would pass 4,294,967,295"
        let taken = u32::try_from(chunk.len()).map_err(|_| 10u32)?;
        self.count.checked_add(taken).ok_or(10u32)?;
        Ok(())
    }

    /// `process_raw_string` on a chunk that is not refused, and how many characters it appends.
    fn take(&mut self, options: Options, chunk: &[u32]) -> usize {
        self.count += chunk.len() as u32;
        let input = &mut self.reader.input;
        options.put(input);
        input.raw_string.clear();
        input.raw_string.extend(chunk.iter().filter_map(|value| char::from_u32(*value)));
        self.appended(|reader| reader.input.process_raw_string())
    }

    /// Finishes, as end of file or as a push, and answers how many characters it appends.
    pub fn finish(&mut self, end_of_file: bool, room: usize) -> Result<usize, u32> {
        // "Free places needed: 2."
        if room < 2 {
            return Err(8);
        }
        self.reader.inner.0 = if end_of_file { Status::End } else { Status::Push };
        // "A finish spends no chance to drop U+FEFF": the original, which reads an empty string before it, does.
        let at_start = self.reader.input.at_start;
        let mut buffer = [0; 136];
        let added = self.appended(|reader| {
            TextInput::read_with_status(reader, &mut buffer).expect("a source without errors");
        });
        self.reader.input.at_start = at_start;
        Ok(added)
    }

    /// How many characters a call appends to the queue.
    fn appended(&mut self, call: impl FnOnce(&mut TextReader<Source>)) -> usize {
        let before = self.reader.input.queue.len();
        call(&mut self.reader);
        self.reader.input.queue.len() - before
    }

    /// The last `count` characters of the queue.
    pub fn tail(&self, count: usize) -> impl Iterator<Item = char> + '_ {
        let queue = &self.reader.input.queue;
        queue.range(queue.len() - count..).copied()
    }

    pub fn record(&self) -> Record {
        let input = &self.reader.input;
        Record {
            state: STATES.iter().position(|state| *state == input.state).unwrap_or(0) as u32,
            expect_starter: input.expect_starter,
            at_start: input.at_start,
            last: input.queue.back().copied().unwrap_or('\n'),
            count: self.count,
        }
    }

    /// Takes a record in the place of its own: the queue has the last character alone. A state over 8 is as 0.
    pub fn put(&mut self, record: Record) {
        let input = &mut self.reader.input;
        input.state = *STATES.get(record.state as usize).unwrap_or(&STATES[0]);
        input.expect_starter = record.expect_starter;
        input.at_start = record.at_start;
        input.queue.clear();
        input.queue.push_back(record.last);
        self.count = record.count;
    }

    /// `process_raw_string` alone, for the benchmark: on a text, which it has for the call, from a record as after one
    /// character. The queue is emptied first and keeps its places. How many characters it has then.
    pub fn clean(&mut self, options: Options, text: &mut String) -> usize {
        let input = &mut self.reader.input;
        options.put(input);
        input.state = State::Ground(false);
        input.expect_starter = false;
        input.at_start = false;
        input.queue.clear();
        std::mem::swap(&mut input.raw_string, text);
        input.process_raw_string();
        std::mem::swap(&mut input.raw_string, text);
        input.queue.len()
    }

    /// `process_raw_string` on the next part of a stream, for the pipeline. The queue goes out, but for its last character,
    /// for which a finish asks. Nothing is done for an empty part: it would spend the chance to drop U+FEFF.
    pub fn feed(&mut self, options: Options, part: &mut String, out: &mut String) {
        if part.is_empty() {
            return;
        }
        let input = &mut self.reader.input;
        options.put(input);
        std::mem::swap(&mut input.raw_string, part);
        input.process_raw_string();
        std::mem::swap(&mut input.raw_string, part);
        let ready = input.queue.len().saturating_sub(1);
        out.extend(input.queue.drain(..ready));
    }

    /// Finishes such a stream as end of file. The rest of the queue goes out.
    pub fn end(&mut self, out: &mut String) {
        self.finish(true, 2).expect("two places are lent");
        out.extend(self.reader.input.queue.drain(..));
    }
}

/// "A chunk of n characters needs 3 × n + 1 free places, an empty one none."
pub fn needed(chunk: &[u32]) -> usize {
    if chunk.is_empty() {
        0
    } else {
        3 * chunk.len() + 1
    }
}

/// What filling took and filled.
pub struct Filled {
    pub taken: usize,
    pub bytes: usize,
}

/// Fills the buffer from the queue. "Order: 7, 1."
pub fn fill(buffer: &mut [u8], queue: &[u32]) -> Result<Filled, u32> {
    // "7 a byte buffer under 136", which the original finds before it reads the queue.
    let mut copy = buffer.to_vec();
    if let Err(error) = TextInput::read_with_status(&mut reader(Status::Active), &mut copy) {
        let message = error.to_string();
        assert!(message.ends_with("at least NORMALIZATION_BUFFER_SIZE bytes are required"), "no refusal: {message}");
        return Err(7);
    }
    let queue = characters(queue).ok_or(1u32)?;
    let length = queue.len();
    let mut reader = reader(Status::Active);
    reader.input.queue = queue.into();
    reader.input.quick = length;
    let (bytes, _) = TextInput::read_with_status(&mut reader, buffer).expect("a source without errors");
    Ok(Filled { taken: length - reader.input.queue.len(), bytes })
}
