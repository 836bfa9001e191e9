//! The writer of document 01 over the original's `TextOutput`, of which this is a child module. The conversions are
//! `write`, `write_str`, `flush`, `close` and `abandon`; the other refusals and the places are document 01's.

use super::{Ground, State, TextOutput, TextWriterInternals};
use crate::leaves::{valid_prefix, Reason};
use crate::words::{characters, list};
use crate::{BasicTextError, Bufferable, TextWriter, WriteLayered, WriteStr};
use std::io::{self, Write};

/// The most characters that an escape holds: "the 64-character limit".
const MOST_HELD: usize = 64;

/// "at most 16,384 places lent to a call"
pub const MOST_PLACES: usize = 16_384;

/// "Blank places hold EEEEEEEE before use."
const BLANK: u32 = 0xEEEE_EEEE;

/// A stream that keeps what is handed out, and remembers being abandoned.
#[derive(Default)]
pub struct Sink {
    bytes: Vec<u8>,
    abandoned: bool,
}

impl Sink {
    /// What was handed out since the last call.
    fn handed_out(&mut self) -> Vec<char> {
        let text = String::from_utf8(std::mem::take(&mut self.bytes));
        text.expect("the writer hands out UTF-8").chars().collect()
    }
}

impl Write for Sink {
    fn write(&mut self, buf: &[u8]) -> io::Result<usize> {
        self.bytes.extend_from_slice(buf);
        Ok(buf.len())
    }

    fn flush(&mut self) -> io::Result<()> {
        Ok(())
    }
}

impl WriteStr for Sink {
    fn write_str(&mut self, s: &str) -> io::Result<()> {
        self.write_all(s.as_bytes())
    }
}

impl Bufferable for Sink {
    fn abandon(&mut self) {
        self.abandoned = true;
    }
}

impl WriteLayered for Sink {
    fn close(&mut self) -> io::Result<()> {
        Ok(())
    }
}

/// How a writer is opened.
#[derive(Clone, Copy)]
pub enum Mode {
    Plain,
    Crlf,
    Bom,
    Color,
}

/// A writer's record, the characters of an escape as text.
pub struct Record {
    /// BOM is as plain once it is open.
    pub mode: Mode,
    pub expect_starter: bool,
    /// As the replay protocol counts the states.
    pub state: u32,
    pub kept: Vec<char>,
    /// How many characters of an escape are held.
    pub held: usize,
    /// Those characters; outside an escape those of the last one, with what ended it.
    pub escape_sequence: Vec<char>,
}

/// A refusal: its number, the reason of a 4, and whether the caller is told to abandon.
pub struct Refusal {
    pub number: u32,
    pub reason: Option<Reason>,
    pub abandon: bool,
}

/// A writer record, and the places that are lent to its calls.
pub struct Writer {
    writer: TextWriter<Sink>,
    /// A held count that the record claims and cannot have.
    claim: Option<u32>,
    /// The list of places: the kept characters, or those last handed out, stand first.
    pub places: Vec<u32>,
}

impl Writer {
    /// "Each writer mode is opened by a constructor of its own". Gives what is handed out on opening.
    pub fn open(mode: Mode) -> (Self, Vec<char>) {
        let mut inner = Sink::default();
        let output = match mode {
            Mode::Plain => TextOutput::new(),
            Mode::Crlf => TextOutput::with_crlf_compatibility(),
            Mode::Bom => TextOutput::with_bom_compatibility(&mut inner).expect("a sink without errors"),
            Mode::Color => TextOutput::with_ansi_color(true),
        };
        let opening = inner.handed_out();
        let writer = TextWriter { output, inner };
        (Self { writer, claim: None, places: vec![BLANK; MOST_PLACES] }, opening)
    }

    /// Takes a record in the place of its own. A state over 4 is as 0; `claim` says a held count that it cannot have.
    pub fn resume(&mut self, record: &Record) {
        let output = &mut self.writer.output;
        output.crlf_compatibility = matches!(record.mode, Mode::Crlf);
        output.ansi_color = matches!(record.mode, Mode::Color);
        output.expect_starter = record.expect_starter;
        output.state = match record.state {
            1 => State::Ground(Ground::ZwjOrPrepend),
            2 => State::Ground(Ground::Other),
            3 => State::Esc,
            4 => State::Csi,
            _ => State::Ground(Ground::Newline),
        };
        output.buffer.clear();
        output.buffer.extend(&record.kept);
        output.escape_sequence.clear();
        output.escape_sequence.extend(&record.escape_sequence);
        self.claim = None;
    }

    /// The record as it stands, without a claim.
    pub fn snapshot(&self) -> Record {
        let output = &self.writer.output;
        let mode = match (output.crlf_compatibility, output.ansi_color) {
            (true, _) => Mode::Crlf,
            (_, true) => Mode::Color,
            _ => Mode::Plain,
        };
        Record {
            mode,
            expect_starter: output.expect_starter,
            state: self.state(),
            kept: self.kept(),
            held: self.held(),
            escape_sequence: output.escape_sequence.chars().collect(),
        }
    }

    /// Writes characters. "Order: 9, 2, 1 .., 8, then 4 or 6 as met, then 5."
    pub fn write_characters(&mut self, page: bool, room: usize, values: &[u32]) -> Result<Vec<char>, Refusal> {
        self.before(page)?;
        let text = characters(values).ok_or(unchanged(1))?;
        self.room(room, text.len())?;
        let text: String = text.into_iter().collect();
        self.attempt(|writer| TextOutput::write_str(writer, &text)).map(|((), out)| out)
    }

    /// Writes bytes and gives how many were used. "(or 3 for bytes)"
    pub fn write_bytes(&mut self, page: bool, room: usize, bytes: &[u8]) -> Result<(usize, Vec<char>), Refusal> {
        self.before(page)?;
        // "3 a byte write, not empty, whose first byte begins no valid character", which the original finds: no
        // character is written then, and 3 comes before 8.
        let prefix = valid_prefix(bytes);
        if bytes.is_empty() || !prefix.is_empty() {
            self.room(room, prefix.chars().count())?;
        }
        self.attempt(|writer| TextOutput::write(writer, bytes))
    }

    /// 9, then 2.
    fn before(&self, page: bool) -> Result<(), Refusal> {
        self.claim_refused()?;
        if page {
            Ok(())
        } else {
            Err(unchanged(2))
        }
    }

    /// "9 a writer record claiming over 64 held, or a held count that its state can't have"
    fn claim_refused(&self) -> Result<(), Refusal> {
        match self.claim {
            Some(_) => Err(unchanged(9)),
            None => Ok(()),
        }
    }

    /// "A write of n characters needs kept + held + 3 × n places."
    fn room(&self, room: usize, n: usize) -> Result<(), Refusal> {
        if room < self.kept().len() + self.held() + 3 * n {
            Err(unchanged(8))
        } else {
            Ok(())
        }
    }

    /// A write of the original's. Its errors are 3, 4, 5 and 6.
    fn attempt<T>(
        &mut self,
        write: impl FnOnce(&mut TextWriter<Sink>) -> io::Result<T>,
    ) -> Result<(T, Vec<char>), Refusal> {
        self.writer.inner.abandoned = false;
        match write(&mut self.writer) {
            Ok(answer) => {
                let out = self.writer.inner.handed_out();
                self.put(&out);
                Ok((answer, out))
            }
            Err(error) => {
                let kept = self.kept();
                self.put(&kept);
                let (number, reason) = write_refusal(&error);
                Err(Refusal { number, reason, abandon: self.writer.inner.abandoned })
            }
        }
    }

    /// "Flush and close test 9, then the state".
    pub fn flush(&mut self) -> Result<(), Refusal> {
        self.finish(TextOutput::flush)
    }

    /// As a flush, by the original's `close`.
    pub fn close(&mut self) -> Result<(), Refusal> {
        self.finish(TextOutput::close)
    }

    fn finish(&mut self, call: impl FnOnce(&mut TextWriter<Sink>) -> io::Result<()>) -> Result<(), Refusal> {
        self.claim_refused()?;
        self.writer.inner.abandoned = false;
        let answer = call(&mut self.writer);
        let abandon = self.writer.inner.abandoned;
        answer.map_err(|error| Refusal { number: by_message(&error), reason: None, abandon })
    }

    /// "abandon refuses nothing", whatever the record claims.
    pub fn abandon(&mut self) {
        self.claim = None;
        TextOutput::abandon(&mut self.writer);
    }

    /// The record claims a held count. False if its state can have it.
    pub fn claim(&mut self, held: u32) -> bool {
        // "(1 after ESC, 2 or more after ESC `[`, else 0)"
        let possible = match self.state() {
            3 => held == 1,
            4 => (2..=MOST_HELD as u32).contains(&held),
            _ => held == 0,
        };
        if !possible {
            self.claim = Some(held);
        }
        !possible
    }

    /// The record claims the true number again.
    pub fn unclaim(&mut self) {
        self.claim = None;
    }

    /// Puts characters into the first places.
    fn put(&mut self, text: &[char]) {
        for (place, c) in self.places.iter_mut().zip(text) {
            *place = u32::from(*c);
        }
    }

    /// The kept characters.
    pub fn kept(&self) -> Vec<char> {
        self.writer.output.buffer.chars().collect()
    }

    /// "Held counts the characters of an escape in progress, else 0."
    fn held(&self) -> usize {
        held(&self.writer.output)
    }

    /// The state's number in the replay protocol.
    fn state(&self) -> u32 {
        match self.writer.output.state {
            State::Ground(Ground::Newline) => 0,
            State::Ground(Ground::ZwjOrPrepend) => 1,
            State::Ground(Ground::Other) => 2,
            State::Esc => 3,
            State::Csi => 4,
        }
    }

    /// The record as the replay protocol writes it.
    pub fn record(&self) -> String {
        let starts = u8::from(self.writer.output.expect_starter);
        let held = self.claim.unwrap_or(self.held() as u32);
        format!("st={} es={starts} kept={:x} held={held:x}", self.state(), self.kept().len())
    }

    /// The first places as a list.
    pub fn places_list(&self, count: usize) -> String {
        list(self.places.iter().copied().take(count))
    }
}

fn held(output: &TextOutput) -> usize {
    match output.state {
        State::Esc | State::Csi => output.escape_sequence.chars().count(),
        State::Ground(_) => 0,
    }
}

/// "1, 2, 7, 8, 9, 10 .. change nothing."
fn unchanged(number: u32) -> Refusal {
    Refusal { number, reason: None, abandon: false }
}

/// The number and reason of an error of a write.
fn write_refusal(error: &io::Error) -> (u32, Option<Reason>) {
    let inner = error.get_ref();
    if inner.is_some_and(|inner| inner.is::<std::str::Utf8Error>()) {
        return (3, None);
    }
    match inner.and_then(|inner| inner.downcast_ref::<BasicTextError>()) {
        Some(BasicTextError::ColorEscapeSequence) => (6, None),
        Some(error) => (4, Some(Reason::from(error))),
        None => (by_message(error), None),
    }
}

/// The number of an error that has no type of its own: the original tells it by its message.
fn by_message(error: &io::Error) -> u32 {
    match error.to_string().as_str() {
        // "5 the buffer to hand out, not empty, begins with no start while one is expected."
        "write data must begin with a Unicode Normalization Form starter" => 5,
        // "11 flush or close after a non-end."
        "strict text stream flushed after a ZWJ or Prepend" | "strict text stream ended after a ZWJ or Prepend" => 11,
        // "12 close after another character that is no newline."
        "strict text stream must end with newline" => 12,
        // "13 flush or close inside an escape."
        "strict text stream flushed while an escape sequence was in progress"
        | "incomplete escape sequence at end of strict text stream" => 13,
        message => panic!("no refusal has this message: {message}"),
    }
}

/// "6 an escape holding 64 characters gets 20..3F or `m`." The original calls this before each step; the reason that it
/// never gives, the first, tells this refusal from a 4.
pub(super) fn limit<Inner: WriteStr + WriteLayered>(
    internals: &mut impl TextWriterInternals<Inner>,
    c: char,
) -> Result<(), BasicTextError> {
    let output = internals.impl_();
    if held(output) == MOST_HELD && matches!(c, ' '..='?' | 'm') {
        TextOutput::prepare_failure(internals);
        return Err(BasicTextError::ColorEscapeSequence);
    }
    Ok(())
}

/// A stream that counts its bytes and keeps none.
#[derive(Default)]
pub struct Counter(usize);

impl Write for Counter {
    fn write(&mut self, buf: &[u8]) -> io::Result<usize> {
        self.0 += buf.len();
        Ok(buf.len())
    }

    fn flush(&mut self) -> io::Result<()> {
        Ok(())
    }
}

impl WriteStr for Counter {
    fn write_str(&mut self, s: &str) -> io::Result<()> {
        self.0 += s.len();
        Ok(())
    }
}

impl Bufferable for Counter {
    fn abandon(&mut self) {}
}

impl WriteLayered for Counter {
    fn close(&mut self) -> io::Result<()> {
        Ok(())
    }
}

/// The original's writer alone, for the benchmark. Before each write its record is as opened, but that it expects no start.
pub struct Timed<S>(TextWriter<S>);

impl<S: WriteStr + WriteLayered + Default> Timed<S> {
    /// A plain or a CRLF writer.
    pub fn open(crlf: bool) -> Self {
        let output = if crlf { TextOutput::with_crlf_compatibility() } else { TextOutput::new() };
        Self(TextWriter { output, inner: S::default() })
    }

    /// The buffer keeps its places.
    fn fresh(&mut self) -> &mut TextWriter<S> {
        let output = &mut self.0.output;
        output.buffer.clear();
        output.expect_starter = false;
        output.state = State::Ground(Ground::Newline);
        &mut self.0
    }

    /// `write_str`: whether it succeeds.
    pub fn write_str(&mut self, text: &str) -> bool {
        TextOutput::write_str(self.fresh(), text).is_ok()
    }

    /// `write`, the same.
    pub fn write(&mut self, bytes: &[u8]) -> bool {
        TextOutput::write(self.fresh(), bytes).is_ok()
    }
}

impl Timed<Sink> {
    /// What was handed out since the last call.
    pub fn handed_out(&mut self) -> Vec<char> {
        self.0.inner.handed_out()
    }
}
