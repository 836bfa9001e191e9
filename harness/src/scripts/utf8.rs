//! Byte strings: the edges of UTF-8 by name, then valid strings, strings with one damage, and bytes that make up almost
//! valid strings.

use super::utf8_line;
use crate::random::Random;

/// The cases with a name, then random ones.
pub fn script(random: &mut Random, count: usize) -> Vec<String> {
    let mut strings: Vec<Vec<u8>> = named().into_iter().map(|(_, bytes)| bytes).collect();
    while strings.len() < count {
        strings.push(random_bytes(random));
    }
    strings[..count].iter().map(|bytes| utf8_line(bytes)).collect()
}

/// A case: what it shows, and the bytes.
type Case = (String, Vec<u8>);

fn case(name: &str, bytes: impl Into<Vec<u8>>) -> Case {
    (name.to_owned(), bytes.into())
}

/// The cases with a name.
pub fn named() -> Vec<Case> {
    [rfc_3629(), limits(), overlong(), lone(), truncated(), second_bytes(), places()].concat()
}

/// The examples of RFC 3629.
fn rfc_3629() -> Vec<Case> {
    vec![
        case("RFC 3629, section 7: A, not identical to, Alpha, full stop", [0x41, 0xE2, 0x89, 0xA2, 0xCE, 0x91, 0x2E]),
        case("RFC 3629, section 7: hangugeo", [0xED, 0x95, 0x9C, 0xEA, 0xB5, 0xAD, 0xEC, 0x96, 0xB4]),
        case("RFC 3629, section 7: nihongo", [0xE6, 0x97, 0xA5, 0xE6, 0x9C, 0xAC, 0xE8, 0xAA, 0x9E]),
        case("RFC 3629, section 7: U+FEFF, U+233B4", [0xEF, 0xBB, 0xBF, 0xF0, 0xA3, 0x8E, 0xB4]),
        case("RFC 3629, section 3: C0 80 for U+0000", [0xC0, 0x80]),
        case("RFC 3629, section 3: a surrogate pair for U+233B4", [0xED, 0xA1, 0x8C, 0xED, 0xBE, 0xB4]),
        case("RFC 3629, section 10: 2F C0 AE 2E 2F for a path", [0x2F, 0xC0, 0xAE, 0x2E, 0x2F]),
    ]
}

/// The first and last of each length, and what stands just outside.
fn limits() -> Vec<Case> {
    let mut cases = vec![case("no bytes", [])];
    for c in [0, 1, 0x7F, 0x80, 0x7FF, 0x800, 0xFFF, 0x1000, 0xCFFF, 0xD000, 0xD7FF] {
        cases.push(case(&format!("U+{c:04X}"), form(c)));
    }
    for c in [0xD800, 0xDBFF, 0xDC00, 0xDFFF] {
        cases.push(case(&format!("{c:04X}, a surrogate"), form(c)));
    }
    for c in [0xE000, 0xFFFF, 0x10000, 0x3FFFF, 0x40000, 0xFFFFF, 0x100000, 0x10FFFF] {
        cases.push(case(&format!("U+{c:04X}"), form(c)));
    }
    for c in [0x110000, 0x13FFFF, 0x140000, 0x1FFFFF] {
        cases.push(case(&format!("{c:X}, above the last character"), form(c)));
    }
    cases
}

/// The pattern of RFC 3629's table with a number's bits, in the shortest form that has room, character or not.
fn form(c: u32) -> Vec<u8> {
    let length = match c {
        0..=0x7F => 1,
        0x80..=0x7FF => 2,
        0x800..=0xFFFF => 3,
        _ => 4,
    };
    form_of(c, length)
}

/// The same in a form of 1 to 6 bytes.
fn form_of(c: u32, length: u32) -> Vec<u8> {
    if length == 1 {
        return vec![c as u8];
    }
    let mark = 0xFFu8 << (8 - length);
    let mut bytes = vec![mark | (c >> (6 * (length - 1))) as u8];
    bytes.extend((0..length - 1).rev().map(|at| 0x80 | (c >> (6 * at) & 0x3F) as u8));
    bytes
}

/// Longer forms than the shortest.
fn overlong() -> Vec<Case> {
    let mut cases = Vec::new();
    for (c, length) in [
        (0, 2),
        (0x2F, 2),
        (0x7F, 2),
        (0, 3),
        (0x7F, 3),
        (0x80, 3),
        (0x7FF, 3),
        (0, 4),
        (0x7F, 4),
        (0x7FF, 4),
        (0x800, 4),
        (0xFFFF, 4),
        (0, 5),
        (0x1FFFFF, 5),
        (0x200000, 5),
        (0x3FFFFFF, 5),
        (0, 6),
        (0x4000000, 6),
        (0x7FFFFFFF, 6),
    ] {
        cases.push(case(&format!("{c:X} in {length} bytes"), form_of(c, length)));
    }
    cases
}

/// Bytes that begin no character, alone and after one that is valid.
fn lone() -> Vec<Case> {
    let mut cases = Vec::new();
    for byte in [0x80, 0xBF, 0xC0, 0xC1, 0xF5, 0xF6, 0xF7, 0xF8, 0xFB, 0xFC, 0xFD, 0xFE, 0xFF] {
        cases.push(case(&format!("{byte:02X} alone"), [byte]));
        cases.push(case(&format!("{byte:02X} with continuations"), [byte, 0x80, 0x80, 0x80]));
        cases.push(case(&format!("{byte:02X} after 61"), [0x61, byte, 0x61]));
    }
    cases.push(case("a continuation after a whole character", [0xC3, 0xA9, 0x80]));
    cases.push(case("continuations alone", [0x80, 0x80, 0x80, 0x80]));
    cases
}

/// Each form cut at each place, at the end and before another character.
fn truncated() -> Vec<Case> {
    let mut cases = Vec::new();
    for c in [0x80, 0x7FF, 0x800, 0xD7FF, 0xFFFF, 0x10000, 0x10FFFF] {
        let whole = form(c);
        for cut in 1..whole.len() {
            cases.push(case(&format!("U+{c:04X} cut after {cut}"), &whole[..cut]));
            cases.push(case(&format!("U+{c:04X} cut after {cut}, then 61"), [&whole[..cut], &[0x61]].concat()));
            cases.push(case(&format!("U+{c:04X} cut after {cut}, then whole"), [&whole[..cut], &whole].concat()));
        }
    }
    cases
}

/// The second bytes at the edges of RFC 3629's grammar, and other bytes where a continuation is due.
fn second_bytes() -> Vec<Case> {
    let mut cases = Vec::new();
    for lead in [0xC2, 0xDF] {
        for second in [0x7F, 0x80, 0xBF, 0xC0] {
            cases.push(case(&format!("{lead:02X} {second:02X}"), [lead, second]));
        }
    }
    for lead in [0xE0, 0xE1, 0xEC, 0xED, 0xEE, 0xEF] {
        for second in [0x7F, 0x80, 0x9F, 0xA0, 0xBF, 0xC0] {
            cases.push(case(&format!("{lead:02X} {second:02X} 80"), [lead, second, 0x80]));
        }
        for third in [0x7F, 0xC0, 0xFF] {
            cases.push(case(&format!("{lead:02X} A0 {third:02X}"), [lead, 0xA0, third]));
        }
    }
    for lead in [0xF0, 0xF1, 0xF3, 0xF4] {
        for second in [0x7F, 0x80, 0x8F, 0x90, 0xBF, 0xC0] {
            cases.push(case(&format!("{lead:02X} {second:02X} 80 80"), [lead, second, 0x80, 0x80]));
        }
        for other in [0x7F, 0xC0, 0xFF] {
            cases.push(case(&format!("{lead:02X} 8F {other:02X} 80"), [lead, 0x8F, other, 0x80]));
            cases.push(case(&format!("{lead:02X} 8F 80 {other:02X}"), [lead, 0x8F, 0x80, other]));
        }
    }
    cases
}

/// A fault at each place of a longer string.
fn places() -> Vec<Case> {
    let text: Vec<u8> = "a\u{e9}\u{20ac}\u{1f600}\u{feff}\u{0}z".bytes().collect();
    let mut cases = vec![case("every length in one string", text.clone())];
    for at in 0..text.len() {
        let mut bytes = text.clone();
        bytes[at] = 0xFF;
        cases.push(case(&format!("the same, FF at place {at}"), bytes));
    }
    for at in 1..text.len() {
        cases.push(case(&format!("the same, cut after {at}"), &text[..at]));
    }
    cases
}

/// Random bytes of one of the ways to go wrong.
pub fn random_bytes(random: &mut Random) -> Vec<u8> {
    match random.below(8) {
        0 | 1 => valid(random, 12),
        2..=4 => {
            let bytes = valid(random, 10);
            damaged(random, bytes)
        }
        5 => [valid(random, 6), almost(random), valid(random, 3)].concat(),
        6 => (0..random.below(12)).map(|_| edge_byte(random)).collect(),
        _ => (0..random.below(24)).map(|_| random.below(256) as u8).collect(),
    }
}

/// A valid string of fewer than `most` characters.
pub fn valid(random: &mut Random, most: usize) -> Vec<u8> {
    let length = random.below(most);
    let text: String = (0..length).map(|_| character(random)).collect();
    text.into_bytes()
}

/// A character, most of them near the edges of a length.
pub fn character(random: &mut Random) -> char {
    loop {
        let near = random.pick(&[0, 0x20, 0x61, 0x7F, 0x80, 0xE9, 0x7FF, 0x800, 0x34F, 0x378, 0xD7FF, 0xE000, 0xFEFF]);
        let far = random.pick(&[0xFFFF, 0x10000, 0x1F600, 0x3FFFF, 0x40000, 0xFFFFF, 0x100000, 0x10FFFF]);
        let c = match random.below(5) {
            0 => random.between(0, 0x10FFFF),
            1 => random.between(0, 0xFFFF),
            2 => far,
            _ => near + random.between(0, 2),
        };
        if let Some(c) = char::from_u32(c) {
            return c;
        }
    }
}

/// One damage: a byte changed, dropped, put in or taken twice, a bit turned, the end cut off.
fn damaged(random: &mut Random, mut bytes: Vec<u8>) -> Vec<u8> {
    if bytes.is_empty() {
        return vec![edge_byte(random)];
    }
    let at = random.below(bytes.len());
    match random.below(6) {
        0 => bytes[at] = edge_byte(random),
        1 => bytes[at] ^= 1 << random.below(8),
        2 => {
            bytes.remove(at);
        }
        3 => bytes.insert(at, edge_byte(random)),
        4 => bytes.insert(at, bytes[at]),
        _ => bytes.truncate(at),
    }
    bytes
}

/// A form with any number in it: overlong, a surrogate, too large, or right.
fn almost(random: &mut Random) -> Vec<u8> {
    let length = random.between(2, 4);
    let most = [0x7FF, 0xFFFF, 0x1FFFFF][length as usize - 2];
    let mut c = random.between(0, most);
    if random.once_in(2) {
        c = random
            .pick(&[0x7F, 0x80, 0x7FF, 0x800, 0xD7FF, 0xD800, 0xDFFF, 0xE000, 0xFFFF, 0x10000, 0x10FFFF, 0x110000])
            & most;
    }
    form_of(c, length)
}

/// A byte at an edge of RFC 3629's grammar.
fn edge_byte(random: &mut Random) -> u8 {
    random.pick(&[
        0x00, 0x61, 0x7F, 0x80, 0x80, 0x8F, 0x90, 0x9F, 0xA0, 0xBF, 0xBF, 0xC0, 0xC1, 0xC2, 0xDF, 0xE0, 0xE1, 0xED,
        0xEE, 0xEF, 0xF0, 0xF1, 0xF3, 0xF4, 0xF5, 0xF7, 0xF8, 0xFC, 0xFE, 0xFF,
    ])
}
