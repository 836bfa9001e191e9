//! The same sums by the Rust: the original's functions and the standard library's.

use harness::leaves::valid_prefix;
use harness::page::Page;
use harness::unicode::ESC;
use harness::{check_basic_text_char, is_basic_text_end, is_basic_text_start, PreNormalization};
use std::collections::VecDeque;

pub fn end(chars: &[char]) -> u32 {
    chars.iter().map(|c| u32::from(is_basic_text_end(*c))).sum()
}

pub fn start(chars: &[char]) -> u32 {
    chars.iter().map(|c| u32::from(is_basic_text_start(*c))).sum()
}

/// The queue is the one that the original appends to, and has room already.
pub fn replace(chars: &[char], queue: &mut VecDeque<char>) -> u32 {
    queue.clear();
    for c in chars {
        harness::replace(*c, queue);
    }
    queue.iter().fold(0, |sum: u32, c| sum.wrapping_add(u32::from(*c)))
}

pub fn check(chars: &[char]) -> u32 {
    chars.iter().map(|c| u32::from(check_basic_text_char(*c).is_ok())).sum()
}

/// Four times the place of the run's first fault with its kind's number added; 0 for none. The original has no such function: this
/// is one over its check, start and end that stops at the first fault.
pub fn check_run(chars: &[char]) -> usize {
    let refused = |c: char| c == ESC || check_basic_text_char(c).is_err();
    let (Some(first), Some(last)) = (chars.first(), chars.last()) else {
        return 0;
    };
    if refused(*first) {
        return 1;
    }
    if !is_basic_text_start(*first) {
        return 2;
    }
    if let Some(place) = chars.iter().position(|c| refused(*c)) {
        return 4 * place + 1;
    }
    if !is_basic_text_end(*last) {
        return 4 * (chars.len() - 1) + 3;
    }
    if *last != '\n' {
        return 4 * (chars.len() - 1) + 4;
    }
    0
}

pub fn isolate(chars: &[char], out: &mut [u32]) -> usize {
    let isolated = chars.iter().copied().isolate_unassigned();
    out.iter_mut().zip(isolated).map(|(place, c)| *place = u32::from(c)).count()
}

/// Document 01's acceptance as the harness has it: the original has no page.
pub fn page(page: &[u32]) -> bool {
    Page::read(page).is_some()
}

pub fn prefix(bytes: &[u8]) -> usize {
    std::str::from_utf8(bytes).map_or_else(|error| error.valid_up_to(), str::len)
}

pub fn decode(bytes: &[u8], out: &mut [u32]) -> usize {
    let text = std::str::from_utf8(bytes).unwrap_or_else(|_| valid_prefix(bytes));
    let mut count = 0;
    for (place, c) in out.iter_mut().zip(text.chars()) {
        *place = u32::from(c);
        count += 1;
    }
    count
}

/// How many characters are decoded, as many as there are places; 0 at an unpaired surrogate.
pub fn decode_utf16(big: bool, bytes: &[u8], out: &mut [u32]) -> usize {
    let pairs = bytes.chunks_exact(2).map(|pair| [pair[0], pair[1]]);
    if big {
        decode_units(pairs.map(u16::from_be_bytes), out)
    } else {
        decode_units(pairs.map(u16::from_le_bytes), out)
    }
}

fn decode_units(units: impl Iterator<Item = u16>, out: &mut [u32]) -> usize {
    let mut count = 0;
    for (place, decoded) in out.iter_mut().zip(char::decode_utf16(units)) {
        let Ok(c) = decoded else {
            return 0;
        };
        *place = u32::from(c);
        count += 1;
    }
    count
}

/// By `str::encode_utf16`, which is faster than that of each character.
pub fn encode_utf16(big: bool, text: &str, out: &mut [u8]) -> usize {
    if big {
        store_units(text.encode_utf16().map(u16::to_be_bytes), out)
    } else {
        store_units(text.encode_utf16().map(u16::to_le_bytes), out)
    }
}

fn store_units(units: impl Iterator<Item = [u8; 2]>, out: &mut [u8]) -> usize {
    let mut count = 0;
    for (places, bytes) in out.chunks_exact_mut(2).zip(units) {
        places.copy_from_slice(&bytes);
        count += 2;
    }
    count
}
