//! UTF-16, document 02, A.3. `script`: cases by name; every string of two units at an edge; an awkward unit at every place among
//! plain ones; characters and their bytes, whole and damaged, of up to thousands of characters, with too few places, just enough
//! and more. `units`: every unit, alone and beside others; every character.

use super::{alphabet, operation, utf8};
use crate::random::Random;
use crate::utf16::{bytes_of, decode, Order};

/// The two orders, by their words.
const ORDERS: [(&str, Order); 2] = [("le", Order::Little), ("be", Order::Big)];

/// Units at and beside the edges of the surrogates, and U+FEFF read in its order and in the other.
const EDGES: [u16; 16] = [
    0x0000, 0x0061, 0x00D8, 0x00DC, 0xD7FF, 0xD800, 0xD801, 0xDBFE, 0xDBFF, 0xDC00, 0xDC01, 0xDFFE, 0xDFFF, 0xE000,
    0xFEFF, 0xFFFE,
];

/// Beside each of these every unit is read: no surrogate, and both ends of the high and of the low ones.
const NEIGHBOURS: [u16; 5] = [0x0061, 0xD800, 0xDBFF, 0xDC00, 0xDFFF];

/// What a case shows, and its operation.
const NAMED: [(&str, &str); 40] = [
    ("D91, D97: the example, little-endian", "U16 enc le 10 4d 430 4e8c 10302"),
    ("D91, D96: the example, big-endian", "U16 enc be 10 4d 430 4e8c 10302"),
    ("the same, read", "U16 dec le 4 4d 0 30 4 8c 4e 0 d8 2 df"),
    ("the same, read", "U16 dec be 4 0 4d 4 30 4e 8c d8 0 df 2"),
    ("no bytes", "U16 dec le 0"),
    ("a unit, little-endian", "U16 dec le 2 61 0"),
    ("a unit, big-endian", "U16 dec be 2 0 61"),
    ("a unit, in the other order", "U16 dec le 1 0 61"),
    ("the first pair", "U16 dec le 1 0 d8 0 dc"),
    ("the last pair", "U16 dec be 2 db ff df ff"),
    ("beside the surrogates", "U16 dec be 3 d7 ff e0 0 ff ff"),
    ("U+FEFF, little-endian", "U16 dec le 2 ff fe 61 0"),
    ("U+FEFF, big-endian", "U16 dec be 2 fe ff 0 61"),
    ("U+FEFF in the other order, and a letter", "U16 dec be 2 ff fe 61 0"),
    ("the same, little-endian", "U16 dec le 2 fe ff 0 61"),
    ("U+FEFF twice", "U16 dec be 2 fe ff fe ff"),
    ("an odd number of bytes", "U16 dec le 1 61"),
    ("an odd number, with a surrogate and no place", "U16 dec le 0 0 d8 61"),
    ("a high surrogate last", "U16 dec le 2 61 0 0 d8"),
    ("a low one, and then a high one", "U16 dec be 2 dc 0 d8 0"),
    ("a high one before a pair", "U16 dec be 3 d8 0 d8 0 dc 0"),
    ("a low one behind a pair", "U16 dec be 3 d8 0 dc 0 dc 0"),
    ("a high one before a letter", "U16 dec le 2 ff db 61 0"),
    ("a low one, and no place", "U16 dec le 0 61 0 ff df"),
    ("a place too few", "U16 dec le 1 61 0 62 0"),
    ("as many places", "U16 dec le 2 61 0 62 0"),
    ("a pair, and no place", "U16 dec be 0 d8 3d de 0"),
    ("a pair, and a place", "U16 dec be 1 d8 3d de 0"),
    ("no characters", "U16 enc be 0"),
    ("a character, with more room", "U16 enc le 5 61"),
    ("the last character", "U16 enc be 4 10ffff"),
    ("the first of two units", "U16 enc le 4 10000"),
    ("two bytes, big-endian", "U16 enc be 4 20ac"),
    ("U+FEFF, written", "U16 enc le 4 feff"),
    ("U+FFFE, and a letter", "U16 enc be 8 fffe 61"),
    ("seven bytes for two characters", "U16 enc le 7 61 62"),
    ("four bytes and two, with just enough room", "U16 enc be 8 1f600 ffff"),
    ("a byte too few, where two would do", "U16 enc le 3 61"),
    ("no character", "U16 enc le 4 d800"),
    ("no character, and no room", "U16 enc be 0 61 110000"),
];

/// The longest text: its bytes, and the room that it needs, are under the protocol's limits.
const LONGEST: usize = 2_000;

pub fn script(random: &mut Random, count: usize) -> Vec<String> {
    let mut lines: Vec<String> =
        NAMED.iter().flat_map(|(name, line)| [format!("# {name}"), (*line).to_owned()]).collect();
    // Some that are drawn come before the many: the stored sample has these.
    lines.extend((0..100).map(|_| drawn(random)));
    for first in EDGES {
        lines.extend(read_both(&[first]));
        lines.extend(EDGES.into_iter().flat_map(|second| read_both(&[first, second])));
    }
    lines.extend(among_plain());
    while lines.len() < count {
        lines.push(drawn(random));
    }
    lines.truncate(count);
    lines
}

/// At every place among plain units: a pair, a high and a low surrogate, and characters whose low or high byte is one of D8..DF.
fn among_plain() -> Vec<String> {
    let awkward: [&[u16]; 6] = [&[0xD83D, 0xDE00], &[0xD83D], &[0xDE00], &[0x00DF], &[0x00D8], &[0xD7D8]];
    let line = |place: usize, units: &[u16]| {
        let plain = |count: usize| vec![0x0061; count];
        read_both(&[plain(place), units.to_vec(), plain(50 - place)].concat())
    };
    (0..=50).flat_map(|place| awkward.iter().flat_map(move |units| line(place, units))).collect()
}

/// Every unit alone, before and behind each of some; every character written, and its bytes read. With a larger step it is one unit,
/// and one character, in so many.
pub fn units(step: usize) -> impl Iterator<Item = String> {
    let units = (0..=u16::MAX).step_by(step);
    let alone = units.clone().flat_map(|unit| read_both(&[unit]));
    let beside = units.flat_map(|unit| {
        NEIGHBOURS.into_iter().flat_map(move |other| [read_both(&[unit, other]), read_both(&[other, unit])].concat())
    });
    alone.chain(beside).chain(every_character(step))
}

/// The characters, one in `step`, some to a line.
fn every_character(step: usize) -> impl Iterator<Item = String> {
    let mut characters = ('\0'..=char::MAX).step_by(step).peekable();
    std::iter::from_fn(move || {
        characters.peek()?;
        let some: Vec<char> = characters.by_ref().take(64).collect();
        Some(
            ORDERS
                .into_iter()
                .flat_map(|order| [write(order, &some, 4 * some.len()), read(order, &some, some.len())])
                .collect::<Vec<_>>(),
        )
    })
    .flatten()
}

/// Units read in both orders, with as many places.
fn read_both(units: &[u16]) -> Vec<String> {
    let line = |order: (&str, Order)| {
        let bytes: Vec<u8> = units.iter().flat_map(|unit| order.1.bytes(*unit)).collect();
        reading(order.0, units.len(), &bytes)
    };
    ORDERS.into_iter().map(line).collect()
}

fn reading(order: &str, room: usize, bytes: &[u8]) -> String {
    let numbers = std::iter::once(room as u32).chain(bytes.iter().copied().map(u32::from));
    operation(&format!("U16 dec {order}"), numbers)
}

fn writing(order: &str, room: usize, values: &[u32]) -> String {
    operation(&format!("U16 enc {order}"), std::iter::once(room as u32).chain(values.iter().copied()))
}

fn read(order: (&str, Order), text: &[char], room: usize) -> String {
    reading(order.0, room, &bytes_in(order.1, text))
}

fn write(order: (&str, Order), text: &[char], room: usize) -> String {
    let values: Vec<u32> = text.iter().copied().map(u32::from).collect();
    writing(order.0, room, &values)
}

fn bytes_in(order: Order, text: &[char]) -> Vec<u8> {
    text.iter().flat_map(|c| bytes_of(order, *c)).collect()
}

/// A text read or written.
fn drawn(random: &mut Random) -> String {
    let order = random.pick(&ORDERS);
    let is_long = random.once_in(25);
    let text = text(random, is_long);
    match random.below(5) {
        0 | 1 => {
            let mut values: Vec<u32> = text.into_iter().map(u32::from).collect();
            if !values.is_empty() && random.once_in(12) {
                let at = random.below(values.len());
                values[at] = random.pick(&alphabet::NO_CHARACTERS);
            }
            let room = room(random, 4 * values.len(), is_long);
            writing(order.0, room, &values)
        }
        2 => {
            let bytes = bytes_in(order.1, &text);
            let room = room(random, text.len(), is_long);
            reading(order.0, room, &bytes)
        }
        _ => {
            let whole = bytes_in(order.1, &text);
            let bytes = damaged(random, order.1, whole);
            let needed = decode(order.1, usize::MAX, &bytes).map_or(bytes.len() / 2, |read| read.len());
            let room = room(random, needed, is_long);
            reading(order.0, room, &bytes)
        }
    }
}

fn room(random: &mut Random, needed: usize, is_long: bool) -> usize {
    let room = if is_long { alphabet::close_room(random, needed) } else { alphabet::room(random, needed) };
    room as usize
}

/// A text of a few characters, or of up to thousands.
fn text(random: &mut Random, is_long: bool) -> Vec<char> {
    if is_long {
        let values = alphabet::long(random, LONGEST, |random| u32::from(utf8::character(random)));
        return values.into_iter().filter_map(char::from_u32).collect();
    }
    let most = random.pick(&[3, 6, 12, 40]);
    (0..random.below(most + 1)).map(|_| utf8::character(random)).collect()
}

/// One damage: a unit put in, exchanged or taken out, a bit turned, a byte taken out, the end cut off, or the bytes of every unit
/// exchanged.
fn damaged(random: &mut Random, order: Order, mut bytes: Vec<u8>) -> Vec<u8> {
    let unit = order.bytes(random.pick(&EDGES));
    if bytes.is_empty() {
        return unit.to_vec();
    }
    let any = random.below(bytes.len());
    let at = any & !1;
    match random.below(9) {
        0..=2 => drop(bytes.splice(at..at, unit)),
        3 => drop(bytes.splice(at..at + 2, unit)),
        4 => drop(bytes.drain(at..at + 2)),
        5 => bytes[any] ^= 1 << random.below(8),
        6 => drop(bytes.remove(any)),
        7 => bytes.truncate(any),
        _ => bytes.chunks_exact_mut(2).for_each(|pair| pair.swap(0, 1)),
    }
    bytes
}
