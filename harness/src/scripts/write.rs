//! Lists of calls on a writer in each mode: characters and bytes, up to thousands of them, escapes up to their limit, refusals and
//! what stays kept after them, false claims of held characters. The oracle runs along, so that rooms stand at what is needed.

use super::{alphabet, operation, page_line, utf8};
use crate::leaves::valid_prefix;
use crate::random::Random;
use crate::replay::Oracle;

/// A long write lends at most so many places, those of the kept and held characters among them: what it then keeps leaves room for
/// short writes under the protocol's limit.
const MOST_PLACES: usize = 15_000;

/// A long write has at most so many bytes, which is under the protocol's limit of 9,000 numbers.
const MOST_BYTES: usize = 8_990;

/// Characters that a writer takes, and, last, one that it refuses.
const GOOD: [u32; 17] =
    [0x61, 0x61, 0x0A, 0x0A, 0x20, 0xE9, 0x301, 0x200D, 0x600, 0x378, 0x34F, 0x09, 0x6D, 0x903, 0xE000, 0x1F3FB, 0x7F];

/// One refused character for each reason of a 4, but for a broken escape, and the signs for units.
const REFUSED: [u32; 17] = [
    0x7F, 0x206A, 0x1B, 0x202A, 0xFFF9, 0xE0001, 0x2028, 0xFFFE, 0x2029, 0xFEFF, 0xFFFC, 0x17B4, 0x17D8, 0xFB03,
    0x2126, 0x212A, 0x212B,
];

/// What the script knows of the writer.
#[derive(Default)]
pub struct Known {
    /// Its mode is color.
    color: bool,
    /// It claims what it cannot have.
    claims: bool,
    /// The kept and the held characters.
    pub needed: usize,
}

pub fn script(random: &mut Random, count: usize) -> Vec<String> {
    let mut oracle = Oracle::new(false);
    let mut known = Known::default();
    let mut lines = Vec::new();
    while lines.len() < count {
        let line = call(random, &known);
        let answer = oracle.answer(&line).unwrap_or_default();
        known.learn(&line, &answer);
        lines.push(line);
    }
    lines
}

impl Known {
    pub fn learn(&mut self, line: &str, answer: &str) {
        if line.starts_with("W new") {
            self.color = line.ends_with("color");
        }
        if answer.starts_with("held") {
            self.claims = !line.ends_with('-');
        } else if line.starts_with("W new") || line == "W abandon" {
            self.claims = false;
        }
        if !self.claims {
            self.needed = kept_and_held(answer).unwrap_or(self.needed);
        }
    }
}

/// The sum of the two counts at the end of an answer.
fn kept_and_held(answer: &str) -> Option<usize> {
    let count = |name: &str| {
        let (_, after) = answer.split_once(name)?;
        usize::from_str_radix(after.split(' ').next()?, 16).ok()
    };
    Some(count("kept=")? + count("held=")?)
}

fn call(random: &mut Random, known: &Known) -> String {
    if known.claims && random.once_in(3) {
        return random.pick(&["W held -", "W held -", "W abandon"]).to_owned();
    }
    match random.below(60) {
        0..=2 => format!("W new {}", random.pick(&["plain", "crlf", "bom", "color", "color"])),
        3 => page_line(&page(random)),
        4..=10 => "W flush".to_owned(),
        11..=13 => "W close".to_owned(),
        14 => "W abandon".to_owned(),
        15 => format!("W places {:x}", random.below(12)),
        16 => claim(random),
        17..=25 => bytes(random, known),
        26 => long_bytes(random, known),
        27 => long_characters(random, known),
        _ => characters(random, known),
    }
}

/// A page; now and then one by which 1A, that stands for a refused character, is unassigned.
pub fn page(random: &mut Random) -> Vec<u32> {
    if random.once_in(5) {
        return vec![0, 2, 0, 0x1B, 0x19, random.pick(&[0x377, 0x10FFFF])];
    }
    alphabet::page(random)
}

/// A claim that no state can have, or that only another state can.
fn claim(random: &mut Random) -> String {
    format!("W held {:x}", random.pick(&[0, 1, 2, 64, 65, 66, 0x5555_5556, 0x8000_0000, 0xFFFF_FFFFu32]))
}

fn characters(random: &mut Random, known: &Known) -> String {
    let mut text = text(random, known.color);
    if random.once_in(60) {
        text.push(random.pick(&alphabet::NO_CHARACTERS));
    }
    let room = alphabet::room(random, known.needed + 3 * text.len());
    operation("W chars", std::iter::once(room).chain(text))
}

fn long_characters(random: &mut Random, known: &Known) -> String {
    let mut text = long_text(random, known);
    if random.once_in(20) {
        let at = random.below(text.len());
        text[at] = random.pick(&alphabet::NO_CHARACTERS);
    }
    let room = alphabet::close_room(random, known.needed + 3 * text.len());
    operation("W chars", std::iter::once(room).chain(text))
}

/// A long text that is mostly taken: it begins with a start, now and then has one character that is refused, and where the mode
/// is color an escape.
fn long_text(random: &mut Random, known: &Known) -> Vec<u32> {
    let most = (MOST_PLACES.saturating_sub(known.needed) / 3).max(100);
    let mut text = alphabet::long(random, most, |random| random.pick(&GOOD[..GOOD.len() - 1]));
    text[0] = random.pick(&[0x61, 0x61, 0x0A, 0x378]);
    let at = random.below(text.len());
    if random.once_in(5) {
        text[at] = random.pick(&REFUSED);
    } else if known.color && random.once_in(2) {
        text.splice(at..at, escape(random));
        text.truncate(most);
    }
    text
}

fn text(random: &mut Random, color: bool) -> Vec<u32> {
    let escapes = if color { 5 } else { 1 };
    match random.below(10 + escapes) {
        0 => alphabet::run(random, 8),
        1 => vec![0x0A],
        2 => [plain(random), vec![0x0A]].concat(),
        3 => [plain(random), vec![random.pick(&[0x200D, 0x600, 0x6DD, 0x110BD])]].concat(),
        4 => [plain(random), vec![random.pick(&REFUSED)], plain(random)].concat(),
        5..=9 => plain(random),
        10 => [plain(random), escape(random), plain(random)].concat(),
        _ => escape(random),
    }
}

fn plain(random: &mut Random) -> Vec<u32> {
    (0..random.below(6)).map(|_| random.pick(&GOOD)).collect()
}

/// A color escape: whole, a part of one, or one at its limit.
fn escape(random: &mut Random) -> Vec<u32> {
    let inside = match random.below(3) {
        0 => 58 + random.below(8),
        1 => 30 + random.below(3),
        _ => random.below(4),
    };
    let parts = [0x20, 0x2F, 0x30, 0x3B, 0x3F];
    let start: &[u32] = random.pick(&[&[0x1B, 0x5B][..], &[0x1B, 0x5B], &[0x1B, 0x5B], &[0x1B], &[0x5B], &[]]);
    let end: &[u32] =
        random.pick(&[&[0x6D][..], &[0x6D], &[0x6D], &[], &[], &[0x40], &[0x0A], &[0x7F], &[0x378], &[0x1B]]);
    let middle: Vec<u32> = (0..inside).map(|_| random.pick(&parts)).collect();
    [start, &middle, end].concat()
}

fn bytes(random: &mut Random, known: &Known) -> String {
    let bytes = byte_string(random, known.color);
    let room = alphabet::room(random, needed_for(known, &bytes));
    byte_write(room, bytes)
}

fn long_bytes(random: &mut Random, known: &Known) -> String {
    let mut bytes = in_utf8(long_text(random, known));
    bytes.truncate(MOST_BYTES);
    match random.below(6) {
        0 => bytes.truncate(random.below(bytes.len() + 1)),
        1 => bytes.push(0xFF),
        2 => {
            let at = random.below(bytes.len());
            bytes[at] = 0xFF;
        }
        _ => {}
    }
    let room = alphabet::close_room(random, needed_for(known, &bytes));
    byte_write(room, bytes)
}

/// The places that a write of bytes needs.
fn needed_for(known: &Known, bytes: &[u8]) -> usize {
    known.needed + 3 * valid_prefix(bytes).chars().count()
}

fn byte_write(room: u32, bytes: Vec<u8>) -> String {
    operation("W bytes", std::iter::once(room).chain(bytes.into_iter().map(u32::from)))
}

/// The characters among the values, in UTF-8.
fn in_utf8(values: Vec<u32>) -> Vec<u8> {
    values.into_iter().filter_map(char::from_u32).collect::<String>().into_bytes()
}

/// A text in UTF-8, whole, cut off or with an invalid end; or bytes of the kind `utf8`. A color writer gets more escapes.
pub fn byte_string(random: &mut Random, color: bool) -> Vec<u8> {
    let mut bytes = in_utf8(text(random, color));
    match random.below(6) {
        0 => bytes.extend(utf8::random_bytes(random)),
        1 => bytes.truncate(random.below(bytes.len() + 1)),
        2 => bytes = utf8::random_bytes(random),
        3 => bytes.push(0xFF),
        _ => {}
    }
    bytes
}
