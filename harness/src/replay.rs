//! The replay protocol over the original: one operation to a line, one answer to an operation.
//!
//! The original knows no places: here an answer holds exactly what is written, kept or handed out, and `clean` holds by
//! the way it is made. The program has to earn it.

use crate::check_run::check_run;
use crate::generator;
use crate::leaves::{self, Reason};
use crate::page::Page;
use crate::properties;
use crate::text_input::scanner::{fill, Options, Scanner};
use crate::text_output::writer::{Mode, Refusal, Writer, MOST_PLACES};
use crate::utf16::{self, Order};
use crate::words::{bytes, bytes_list, characters_list, is_operation, list, number, numbers, pairs, Fault, MOST_BYTES};

/// An answer line, or the word after `?`.
type Answer = Result<String, Fault>;

/// The page of the start.
const FIRST_PAGE: [u32; 4] = [0, 1, 0, 0x377];

/// One current page, one scanner and one writer.
pub struct Oracle {
    /// Whether the page is accepted.
    page: bool,
    /// Whether Debian's crate answers in the place of an accepted page.
    from_crate: bool,
    scanner: Scanner,
    writer: Writer,
}

impl Oracle {
    pub fn new(from_crate: bool) -> Self {
        let (writer, _) = Writer::open(Mode::Plain);
        let mut oracle = Self { page: false, from_crate, scanner: Scanner::default(), writer };
        oracle.take_page(&FIRST_PAGE);
        oracle
    }

    /// The answer to a line; none to an empty line or a comment.
    pub fn answer(&mut self, line: &str) -> Option<String> {
        is_operation(line).then(|| self.operation(line).unwrap_or_else(|fault| format!("? {fault}")))
    }

    fn operation(&mut self, line: &str) -> Answer {
        if line.len() > MOST_BYTES {
            return Err("line");
        }
        let words: Vec<&str> = line.split(' ').collect();
        match words.as_slice() {
            ["P", page @ ..] => self.page(page),
            ["L", leaf @ ..] => self.leaf(leaf),
            ["S", call @ ..] => self.scanner(call),
            ["F", length, pattern, queue @ ..] => filling(length, pattern, queue),
            ["W", call @ ..] => self.writer(call),
            ["A", "check", run @ ..] => Ok(self.checked_run(&numbers(run)?)),
            ["U16", call @ ..] => utf16_call(call),
            ["G", call @ ..] => generator_call(call),
            _ => Err("word"),
        }
    }

    fn page(&mut self, words: &[&str]) -> Answer {
        self.take_page(&numbers(words)?);
        Ok(format!("page {}", u8::from(self.page)))
    }

    /// "A wrong one stays current, and calls get 2".
    fn take_page(&mut self, numbers: &[u32]) {
        let page = Page::read(numbers);
        self.page = page.is_some();
        properties::answer_from(page.filter(|_| !self.from_crate));
    }

    fn leaf(&mut self, words: &[&str]) -> Answer {
        match words {
            ["replace", c, units @ ..] => Ok(replaced(units_of(units)?, number(c)?)),
            ["check", c, units @ ..] => Ok(checked(units_of(units)?, number(c)?)),
            ["start", c] => Ok(class(leaves::start(self.page, number(c)?))),
            ["end", c] => Ok(class(leaves::end(number(c)?))),
            ["utf8", text @ ..] => Ok(decoded(&bytes(text)?)),
            ["isolate", places, run @ ..] => {
                let answer = leaves::isolate(self.page, room(places)?, &numbers(run)?);
                Ok(written(answer))
            }
            _ => Err("word"),
        }
    }

    fn scanner(&mut self, words: &[&str]) -> Answer {
        let answer = match words {
            ["new"] => {
                self.scanner = Scanner::default();
                "new".to_owned()
            }
            ["count", count] => {
                self.scanner.count = number(count)?;
                "count".to_owned()
            }
            ["scan", options, places, chunk @ ..] => {
                let (options, places, chunk) = (options_of(options)?, room(places)?, numbers(chunk)?);
                let answer = self.scanner.scan(self.page, options, places, &chunk);
                self.appended(answer)
            }
            ["commit", options, places, chunk @ ..] => {
                let (options, places, chunk) = (options_of(options)?, room(places)?, numbers(chunk)?);
                let answer = self.scanner.commit(self.page, options, places, &chunk);
                self.appended(answer)
            }
            ["ask", options, chunk @ ..] => match self.scanner.ask(self.page, options_of(options)?, &numbers(chunk)?) {
                Ok(places) => format!("ok n={places:x}"),
                Err(number) => format!("no {number}"),
            },
            ["fin", how @ ("p" | "e"), places] => {
                let answer = self.scanner.finish(*how == "e", room(places)?);
                self.appended(answer)
            }
            _ => return Err("word"),
        };
        Ok(format!("{answer} | {}", self.scanner.record()))
    }

    /// The answer of a call that appends characters to the queue, or its refusal.
    fn appended(&self, answer: Result<usize, u32>) -> String {
        written(answer.map(|count| self.scanner.tail(count).collect()))
    }

    fn writer(&mut self, words: &[&str]) -> Answer {
        let answer = match words {
            ["new", mode] => self.open(mode)?,
            ["chars", places, text @ ..] => {
                let (places, text) = (room(places)?, numbers(text)?);
                let answer = self.writer.write_characters(self.page, places, &text);
                self.handed_out(answer.map(|out| (String::new(), out)))
            }
            ["bytes", places, text @ ..] => {
                let (places, text) = (room(places)?, bytes(text)?);
                let answer = self.writer.write_bytes(self.page, places, &text);
                self.handed_out(answer.map(|(used, out)| (format!(" used={used:x}"), out)))
            }
            ["flush"] => {
                let answer = self.writer.flush();
                self.finished(answer)
            }
            ["close"] => {
                let answer = self.writer.close();
                self.finished(answer)
            }
            ["abandon"] => {
                self.writer.abandon();
                self.finished(Ok(()))
            }
            ["held", claim] => self.claim(claim)?,
            ["places", count] => {
                return Ok(format!("places {}", self.writer.places_list(room(count)?)));
            }
            _ => return Err("word"),
        };
        Ok(format!("{answer} | {}", self.writer.record()))
    }

    /// `yes`, or the first fault: its place and its kind.
    fn checked_run(&self, run: &[u32]) -> String {
        match check_run(self.page, run) {
            Ok(None) => "yes".to_owned(),
            Ok(Some((place, kind))) => format!("fault {place:x} {kind}"),
            Err(refusal) => format!("no {refusal}"),
        }
    }

    /// "`W new` makes all places blank."
    fn open(&mut self, mode: &str) -> Answer {
        let mode = match mode {
            "plain" => Mode::Plain,
            "crlf" => Mode::Crlf,
            "bom" => Mode::Bom,
            "color" => Mode::Color,
            _ => return Err("word"),
        };
        let (writer, opening) = Writer::open(mode);
        self.writer = writer;
        Ok(format!("ok out={}", characters_list(&opening)))
    }

    fn claim(&mut self, claim: &str) -> Answer {
        if claim == "-" {
            self.writer.unclaim();
        } else if !self.writer.claim(number(claim)?) {
            return Err("held");
        }
        Ok("held".to_owned())
    }

    fn handed_out(&self, answer: Result<(String, Vec<char>), Refusal>) -> String {
        match answer {
            Ok((used, out)) => {
                format!("ok{used} k={:x} out={} clean", out.len(), characters_list(&out))
            }
            Err(refusal) => self.refused(&refusal),
        }
    }

    fn finished(&self, answer: Result<(), Refusal>) -> String {
        match answer {
            Ok(()) => format!("ok buf={} clean", characters_list(&self.writer.kept())),
            Err(refusal) => self.refused(&refusal),
        }
    }

    fn refused(&self, refusal: &Refusal) -> String {
        let reason = refusal.reason.as_ref().map(reason_words).unwrap_or_default();
        let abandon = if refusal.abandon { " abandon" } else { "" };
        let kept = characters_list(&self.writer.kept());
        format!("no {}{reason}{abandon} buf={kept} clean", refusal.number)
    }
}

/// A number of places.
fn room(word: &str) -> Result<usize, Fault> {
    let places = number(word)? as usize;
    if places > MOST_PLACES {
        return Err("room");
    }
    Ok(places)
}

/// "OPT: 1 NEL, 2 LS/PS (added)", "4 is the option of A.5, added to 1 and 2"
fn options_of(word: &str) -> Result<Options, Fault> {
    let options = number(word)?;
    if options > 7 {
        return Err("options");
    }
    Ok(Options::of(options))
}

/// The words after a character: `1` is "with the option on; without the last word off".
fn units_of(words: &[&str]) -> Result<bool, Fault> {
    match words {
        [] => Ok(false),
        ["1"] => Ok(true),
        _ => Err("word"),
    }
}

fn replaced(units: bool, value: u32) -> String {
    match leaves::replacement(units, value) {
        Ok(out) => format!("ok n={:x} out={}", out.len(), characters_list(&out)),
        Err(refusal) => format!("no {refusal}"),
    }
}

fn checked(units: bool, value: u32) -> String {
    match leaves::check(units, value) {
        Ok(None) => "ok".to_owned(),
        Ok(Some(reason)) => format!("no 4{}", reason_words(&reason)),
        Err(refusal) => format!("no {refusal}"),
    }
}

/// `r=R [c=C] [y=LIST]`, with a blank before each.
fn reason_words(reason: &Reason) -> String {
    let mut words = format!(" r={}", reason.place);
    if let Some(c) = reason.carried {
        words.push_str(&format!(" c={:x}", u32::from(c)));
    }
    if !reason.replacements.is_empty() {
        words.push_str(&format!(" y={}", characters_list(&reason.replacements)));
    }
    words
}

fn class(answer: Result<bool, u32>) -> String {
    match answer {
        Ok(is) => format!("ok {}", u8::from(is)),
        Err(refusal) => format!("no {refusal}"),
    }
}

fn decoded(text: &[u8]) -> String {
    let prefix = leaves::valid_prefix(text);
    let characters: Vec<char> = prefix.chars().collect();
    format!("ok used={:x} out={}", prefix.len(), characters_list(&characters))
}

/// The answer of a call that writes characters to places, or its refusal.
fn written(answer: Result<Vec<char>, u32>) -> String {
    match answer {
        Ok(out) => format!("ok n={:x} out={} clean", out.len(), characters_list(&out)),
        Err(refusal) => format!("no {refusal} clean"),
    }
}

fn utf16_call(words: &[&str]) -> Answer {
    match words {
        ["dec", order, places, text @ ..] => {
            let order = Order::named(order).ok_or("word")?;
            Ok(match utf16::decode(order, room(places)?, &bytes(text)?) {
                Err(utf16::Refusal::Unpaired(place)) => format!("no 15 at={place:x} clean"),
                Err(utf16::Refusal::Number(number)) => written(Err(number)),
                Ok(out) => written(Ok(out)),
            })
        }
        ["enc", order, places, text @ ..] => {
            let order = Order::named(order).ok_or("word")?;
            Ok(match utf16::encode(order, room(places)?, &numbers(text)?) {
                Err(number) => format!("no {number} clean"),
                Ok(out) => format!("ok n={:x} out={} clean", out.len(), bytes_list(&out)),
            })
        }
        _ => Err("word"),
    }
}

fn generator_call(words: &[&str]) -> Answer {
    match words {
        ["fill", seed, places] => {
            let mut out = vec![0; room(places)?];
            let state = generator::fill(number(seed)?, &mut out);
            Ok(format!("ok state={state:x} out={}", list(out)))
        }
        ["back", state] => Ok(format!("ok {:x}", generator::back(number(state)?))),
        _ => Err("word"),
    }
}

fn filling(length: &str, pattern: &str, queue: &[&str]) -> Answer {
    let (length, pattern, queue) = (room(length)?, pairs(pattern)?, numbers(queue)?);
    let mut buffer: Vec<u8> = pattern.iter().copied().cycle().take(length).collect();
    let answer = fill(&mut buffer, &queue);
    let after = bytes_list(&buffer);
    Ok(match answer {
        Ok(filled) => format!("ok taken={:x} n={:x} bytes={after}", filled.taken, filled.bytes),
        Err(refusal) => format!("no {refusal} bytes={after}"),
    })
}
