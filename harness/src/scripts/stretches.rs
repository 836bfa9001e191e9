//! Stretches of plain characters, which the scanner appends as they come and the check accepts, around what is not plain:
//! a port that takes such characters by blocks and by ranges meets both at every place. Texts of 0 to 100 of them with
//! something awkward at one place, chunks of some thousands with something awkward now and then, and pages whose ranges end
//! inside a stretch. The oracle runs along with the writer, so that rooms stand at what is needed.

use super::talk::{ask, commit};
use super::write::Known;
use super::{alphabet, operation, page_line, utf8_line};
use crate::leaves::{check, replacement, valid_prefix};
use crate::page::{joined, numbers, real_numbers, Page, Range, LAST_CHARACTER};
use crate::random::Random;
use crate::replay::Oracle;
use crate::text_input::scanner::needed;
use crate::text_output::writer::MOST_PLACES;
use crate::words::characters;

/// At most so many plain characters stand around something awkward.
pub const AROUND: usize = 100;

/// A chunk of thousands has at most so many characters, which with the places that it needs is under the protocol's limit.
const MOST: usize = 5_400;

/// So many bytes are under the protocol's limit of 9,000 numbers.
const MOST_BYTES: usize = 8_990;

const ASCII: &[Range] = &[(0x20, 0x7E), (0x20, 0x7E), (0x61, 0x7A), (0x09, 0x0A)];
const LATIN: &[Range] = &[(0xA0, 0x148), (0x14A, 0x17F), (0x61, 0x7A)];
const ARABIC: &[Range] = &[(0x620, 0x672), (0x674, 0x6D3)];
const DEVANAGARI: &[Range] = &[(0x900, 0x963)];
const CJK: &[Range] = &[(0x4E00, 0x9FA5), (0x3041, 0x3093), (0xAC00, 0xD7A3)];
const GOTHIC: &[Range] = &[(0x10330, 0x1034A)];
const EMOJI: &[Range] = &[(0x1F600, 0x1F64F)];

/// Scripts alone, and so many characters of each by turns.
const SCRIPTS: [(usize, &[&[Range]]); 9] = [
    (1, &[ASCII]),
    (1, &[LATIN]),
    (1, &[ARABIC]),
    (1, &[DEVANAGARI]),
    (1, &[CJK]),
    (1, &[GOTHIC]),
    (1, &[EMOJI]),
    (23, &[LATIN, CJK]),
    (9, &[ASCII, DEVANAGARI, EMOJI]),
];

/// How many scripts there are.
pub const SCRIPTS_COUNT: usize = SCRIPTS.len();

/// The plain character at a place of a script's endless text.
fn plain(script: usize, place: usize) -> u32 {
    let (each, parts) = SCRIPTS[script];
    let ranges = parts[place / each % parts.len()];
    let (first, last) = ranges[place % ranges.len()];
    first + (7 * place as u32) % (last - first + 1)
}

/// So many of them, from a place on.
pub fn stretch(script: usize, from: usize, count: usize) -> Vec<u32> {
    (from..from + count).map(|place| plain(script, place)).collect()
}

/// Line ends, page runs, escapes, whole and open; characters inside a range of plain ones that are not; ligatures;
/// unassigned ones, joiners, marks; the signs for units; the neighbours of the surrogates; noncharacters.
const NAMED: [&[u32]; 58] = [
    &[0x0A],
    &[0x0D],
    &[0x0D, 0x0A],
    &[0x0D, 0x0D],
    &[0x0C],
    &[0x0C, 0x0C],
    &[0x0C, 0x0A],
    &[0x0C, 0x0D, 0x0A],
    &[0x1B],
    &[0x1B, 0x1B],
    &[0x1B, 0x61],
    &[0x1B, 0x0A],
    &[0x1B, 0x5B],
    &[0x1B, 0x5B, 0x6D],
    &[0x1B, 0x5B, 0x31, 0x6D],
    &[0x1B, 0x5B, 0x31, 0x3B, 0x32, 0x6D],
    &[0x1B, 0x5B, 0x31, 0x48],
    &[0x1B, 0x5B, 0x31, 0xE9],
    &[0x1B, 0x5B, 0x5B, 0x41],
    &[0x1B, 0x5D],
    &[0x1B, 0x5D, 0x30, 0x3B, 0x61, 0x07],
    &[0x1B, 0x5D, 0x30, 0x18],
    &[0x07],
    &[0x18],
    &[0x1A],
    &[0x00],
    &[0x7F],
    &[0x85],
    &[0x149],
    &[0x673],
    &[0x301],
    &[0x34F],
    &[0x34F, 0x34F],
    &[0x378],
    &[0x378, 0x379],
    &[0x378, 0x34F],
    &[0x34F, 0x378],
    &[0x378, 0x34F, 0x378],
    &[0x34F, 0x301],
    &[0x600],
    &[0x903],
    &[0x200D],
    &[0x2028],
    &[0x2029],
    &[0x2126],
    &[0x212A],
    &[0x212B],
    &[0xD7FF],
    &[0xE000],
    &[0xF900],
    &[0xFB00],
    &[0xFB03],
    &[0xFB06],
    &[0xFDD0],
    &[0xFEFF],
    &[0x1D15E],
    &[0x2FA1D],
    &[0x10FFFF],
];

/// Bytes that are no UTF-8 where they stand: invalid ones, and forms that are cut off.
pub const BROKEN: [&[u8]; 14] = [
    &[0xFF],
    &[0x80],
    &[0xC0, 0x80],
    &[0xC3],
    &[0xE0, 0x80, 0x80],
    &[0xE2],
    &[0xE2, 0x82],
    &[0xED, 0xA0, 0x80],
    &[0xF0, 0x80, 0x80, 0x80],
    &[0xF0],
    &[0xF0, 0x9F],
    &[0xF0, 0x9F, 0x98],
    &[0xF4, 0x90, 0x80, 0x80],
    &[0xF5],
];

/// What stands between plain characters.
pub struct Awkward {
    named: Vec<Vec<u32>>,
    /// The characters just before, at and after each bound of the ranges of plain characters.
    bounds: Vec<Vec<u32>>,
}

impl Awkward {
    pub fn gather() -> Self {
        let bounds = joined((0..=LAST_CHARACTER).filter(|c| is_plain(*c)))
            .into_iter()
            .flat_map(|(first, last)| [first - 1, first, first + 1, last - 1, last, last + 1])
            .filter(|c| char::from_u32(*c).is_some())
            .map(|c| vec![c]);
        let mut bounds: Vec<Vec<u32>> = bounds.collect();
        bounds.sort_unstable();
        bounds.dedup();
        Self { named: NAMED.iter().map(|text| text.to_vec()).collect(), bounds }
    }

    /// All of them.
    pub fn all(&self) -> impl Iterator<Item = &Vec<u32>> {
        self.named.iter().chain(&self.bounds)
    }

    /// One of them; where it is asked, one that a plain writer takes.
    fn pick(&self, random: &mut Random, accepted: bool) -> &[u32] {
        loop {
            let list = if random.once_in(2) { &self.named } else { &self.bounds };
            let text = &list[random.below(list.len())];
            if !accepted || text.iter().all(|c| is_accepted(*c)) {
                return text;
            }
        }
    }
}

/// Whether a plain writer takes the character.
fn is_accepted(c: u32) -> bool {
    c != 0x1B && check(false, c).is_ok_and(|reason| reason.is_none())
}

/// Whether it does and the replacement, by either setting of A.5's option, is the same.
fn is_plain(c: u32) -> bool {
    let same = |units| replacement(units, c).is_ok_and(|out| out.iter().copied().map(u32::from).eq([c]));
    is_accepted(c) && same(false) && same(true)
}

/// A text with something put in at a place.
pub fn with<T: Copy>(text: &[T], at: usize, put_in: &[T]) -> Vec<T> {
    [&text[..at], put_in, &text[at..]].concat()
}

/// Up to 100 plain characters, with something awkward at a place. A writer gets mostly such as it takes.
pub fn around(random: &mut Random, awkward: &Awkward, for_writer: bool) -> Vec<u32> {
    let text = stretch(random.below(SCRIPTS.len()), random.below(1000), random.below(AROUND + 1));
    let accepted = for_writer && !random.once_in(3);
    with(&text, random.below(text.len() + 1), awkward.pick(random, accepted))
}

/// A chunk of some thousands, with something awkward after every 0 to 200. A writer gets at most one that it may not take.
pub fn thousands(random: &mut Random, awkward: &Awkward, for_writer: bool) -> Vec<u32> {
    let length = 1000 + random.below(MOST - 1000);
    let mut text = Vec::new();
    while text.len() < length {
        text.extend(stretch(random.below(SCRIPTS.len()), random.below(1000), random.below(201)));
        text.extend(awkward.pick(random, for_writer));
    }
    text.truncate(length);
    if for_writer && random.once_in(2) {
        text = with(&text, random.below(length), awkward.pick(random, false));
    }
    text
}

/// A page: the real one; others, wrong ones among them; or one with holes.
pub fn page(random: &mut Random) -> Vec<u32> {
    match random.below(8) {
        0 | 1 => real_numbers(),
        2 => alphabet::page(random),
        _ => holed(random),
    }
}

/// A page by which all is assigned but for some holes; between two ranges there may be none.
fn holed(random: &mut Random) -> Vec<u32> {
    loop {
        let mut holes: Vec<Range> = (0..1 + random.below(4)).map(|_| hole(random)).collect();
        holes.sort_unstable();
        let mut assigned = Vec::new();
        let mut next = 0;
        for (first, end) in holes {
            if next < first {
                assigned.push((next, first - 1));
            }
            next = next.max(end);
        }
        assigned.push((next, LAST_CHARACTER));
        let nonstarters: &[Range] = random.pick(&[
            &[][..],
            &[(0x300, 0x34E), (0x350, 0x36F)],
            &[(0x61, 0x61)],
            &[(0xC5, 0xC5), (0x3A9, 0x3A9)],
            &[(0x920, 0x94D)],
        ]);
        let page = numbers(nonstarters, &assigned);
        if Page::read(&page).is_some() {
            return page;
        }
    }
}

/// A hole, up to below its end: an ASCII character, a plain one, some of a script, or none.
fn hole(random: &mut Random) -> Range {
    let c = plain(random.below(SCRIPTS.len()), random.below(1000));
    match random.below(6) {
        0 => {
            let c = random.between(0, 0x7E);
            (c, c + 1)
        }
        1 => random.pick(&[(0x1A, 0x1B), (0x20, 0x21)]),
        2 => (c, c + 1),
        3 => (c, c),
        _ => (c, c + random.between(1, 40)),
    }
}

pub fn script(seed: u64, count: usize) -> impl Iterator<Item = String> {
    let mut random = Random::new(seed);
    let awkward = Awkward::gather();
    let mut oracle = Oracle::new(false);
    let mut known = Known::default();
    let first = page_line(&real_numbers());
    oracle.answer(&first);
    let drawn = std::iter::repeat_with(move || {
        let lines = calls(&mut random, &awkward, &known);
        // The writer answers by these alone.
        for line in lines.iter().filter(|line| line.starts_with(['P', 'W'])) {
            known.learn(line, &oracle.answer(line).unwrap_or_default());
        }
        lines
    });
    std::iter::once(first).chain(drawn.flatten()).take(count)
}

fn calls(random: &mut Random, awkward: &Awkward, known: &Known) -> Vec<String> {
    let kind = random.below(9);
    if kind == 0 && random.once_in(4) {
        return page_between(random, awkward);
    }
    let text =
        if random.once_in(50) { thousands(random, awkward, kind > 6) } else { around(random, awkward, kind > 6) };
    match kind {
        0..=3 => scan(random, text),
        4 | 5 => vec![isolate(random, text)],
        6 => vec![utf8_line(&line_bytes(random, &text))],
        7 => {
            let text = with_no_character(random, text);
            write(random, known, "W chars", text.len(), text)
        }
        _ => {
            let bytes = line_bytes(random, &text);
            let count = valid_prefix(&bytes).chars().count();
            write(random, known, "W bytes", count, bytes.into_iter().map(u32::from).collect())
        }
    }
}

/// A page. A wrong one is current for one call.
fn page_between(random: &mut Random, awkward: &Awkward) -> Vec<String> {
    let page = page(random);
    let mut lines = vec![page_line(&page)];
    if Page::read(&page).is_none() {
        let text = around(random, awkward, false);
        lines.extend([isolate(random, text), page_line(&holed(random))]);
    }
    lines
}

/// Seldom with a value that is no character.
fn with_no_character(random: &mut Random, text: Vec<u32>) -> Vec<u32> {
    if random.once_in(50) {
        return with(&text, random.below(text.len() + 1), &[random.pick(&alphabet::NO_CHARACTERS)]);
    }
    text
}

/// Calls that bring a fresh scanner into text, after CR and FF, and into an escape.
const BEFORE: [&str; 8] = [
    "S scan 0 4 61",
    "S scan 0 4 61",
    "S scan 0 4 d",
    "S scan 0 4 c",
    "S scan 0 4 1b",
    "S scan 0 a 1b 5b 31",
    "S scan 0 a 1b 5b 5b",
    "S scan 0 7 1b 5d",
];

/// A scan, or asking and a commit: as the record stands, fresh, in text, after CR, in an escape.
fn scan(random: &mut Random, text: Vec<u32>) -> Vec<String> {
    let chunk = with_no_character(random, text);
    let room = alphabet::room(random, needed(&chunk));
    let mut lines = Vec::new();
    if random.once_in(2) {
        lines.push("S new".to_owned());
        if !random.once_in(4) {
            lines.push(random.pick(&BEFORE).to_owned());
        }
    }
    let options = random.between(0, 7);
    // One in four is asked about, and committed.
    if random.once_in(4) {
        lines.extend([ask(options, &chunk), commit(options, room as usize, &chunk)]);
    } else {
        lines.push(operation("S scan", [options, room].into_iter().chain(chunk)));
    }
    lines
}

fn isolate(random: &mut Random, text: Vec<u32>) -> String {
    let run = with_no_character(random, text);
    let room = alphabet::room(random, if run.is_empty() { 0 } else { 2 * run.len() + 1 });
    operation("L isolate", std::iter::once(room).chain(run))
}

/// A text in UTF-8: whole, cut off at a place, or with bytes that are none.
pub fn bytes(random: &mut Random, text: &[u32]) -> Vec<u8> {
    let text: String = characters(text).unwrap_or_default().into_iter().collect();
    let mut bytes = text.into_bytes();
    let at = random.below(bytes.len() + 1);
    match random.below(6) {
        0 => bytes.truncate(at),
        1 => bytes = with(&bytes, at, random.pick(&BROKEN)),
        2 if at < bytes.len() => bytes[at] = 0xFF,
        _ => {}
    }
    bytes
}

/// The same, no longer than a line may have it.
fn line_bytes(random: &mut Random, text: &[u32]) -> Vec<u8> {
    let mut bytes = bytes(random, text);
    bytes.truncate(MOST_BYTES);
    bytes
}

/// A write of so many characters, now and then to a new writer, and always where the places would pass the protocol's limit.
fn write(random: &mut Random, known: &Known, words: &str, count: usize, text: Vec<u32>) -> Vec<String> {
    let mut lines = Vec::new();
    let mut before = known.needed;
    if random.once_in(3) || before + 3 * count + 40 > MOST_PLACES {
        lines.push(format!("W new {}", random.pick(&["plain", "plain", "crlf", "color"])));
        before = 0;
    }
    let room = alphabet::room(random, before + 3 * count);
    lines.push(operation(words, std::iter::once(room).chain(text)));
    if random.once_in(8) {
        lines.push(random.pick(&["W flush", "W close", "W abandon"]).to_owned());
    }
    lines
}
