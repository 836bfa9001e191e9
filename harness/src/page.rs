//! The property page of document 01: when it is accepted, what it says of a character, and the real page, built from
//! the functions of Debian's crate.

use std::sync::OnceLock;
use unicode_normalization::char::{canonical_combining_class, is_public_assigned};

/// "0 to 2,048 each".
pub const MOST_RANGES: u32 = 2048;

/// "no last exceeds 10FFFF".
pub const LAST_CHARACTER: u32 = 0x10FFFF;

/// A range: its first and its last number.
pub type Range = (u32, u32);

/// An accepted page.
#[derive(Clone)]
pub struct Page {
    nonstarters: Vec<Range>,
    assigned: Vec<Range>,
}

impl Page {
    /// The page that the numbers are, if it is accepted.
    pub fn read(numbers: &[u32]) -> Option<Self> {
        // "Sizes first: N nonstarter ranges, A assigned ranges (0 to 2,048 each)."
        let [n, a, rest @ ..] = numbers else {
            return None;
        };
        if *n > MOST_RANGES || *a > MOST_RANGES {
            return None;
        }
        // "Then two parallel arrays of N + A numbers: firsts, then lasts, nonstarters before assigned. The length is
        // exactly 2 + 2 × (N + A)."
        let (n, a) = (*n as usize, *a as usize);
        if rest.len() != 2 * (n + a) {
            return None;
        }
        let (firsts, lasts) = rest.split_at(n + a);
        let ranges: Vec<Range> = firsts.iter().copied().zip(lasts.iter().copied()).collect();
        let (nonstarters, assigned) = ranges.split_at(n);
        let page = Page { nonstarters: nonstarters.to_vec(), assigned: assigned.to_vec() };
        page.is_right().then_some(page)
    }

    fn is_right(&self) -> bool {
        rises(&self.nonstarters)
            && rises(&self.assigned)
            // "000A and 034F are assigned"
            && [0x0A, 0x34F].into_iter().all(|c| self.is_assigned(c))
            // "000A, 0020 and 034F are no nonstarters"
            && ![0x0A, 0x20, 0x34F].into_iter().any(|c| self.is_nonstarter(c))
    }

    /// Whether a nonstarter range holds the number.
    pub fn is_nonstarter(&self, c: u32) -> bool {
        holds(&self.nonstarters, c)
    }

    /// Whether an assigned range holds the number.
    pub fn is_assigned(&self, c: u32) -> bool {
        holds(&self.assigned, c)
    }
}

/// "In each group every first is at most its last, every first exceeds the last before it, and no last exceeds 10FFFF."
fn rises(ranges: &[Range]) -> bool {
    ranges.iter().all(|(first, last)| first <= last && *last <= LAST_CHARACTER)
        && ranges.windows(2).all(|pair| pair[1].0 > pair[0].1)
}

/// Whether one of the rising ranges holds the number.
fn holds(ranges: &[Range], c: u32) -> bool {
    let after = ranges.partition_point(|(first, _)| *first <= c);
    after > 0 && c <= ranges[after - 1].1
}

/// A page of two lists of ranges as the numbers that it is lent as, right or wrong.
pub fn numbers(nonstarters: &[Range], assigned: &[Range]) -> Vec<u32> {
    let ranges = || nonstarters.iter().chain(assigned);
    let sizes = [nonstarters.len() as u32, assigned.len() as u32];
    sizes.into_iter().chain(ranges().map(|(first, _)| *first)).chain(ranges().map(|(_, last)| *last)).collect()
}

/// The real page: "The harness builds the page from the Rust functions." Over all characters: its nonstarters and its
/// assigned ranges.
pub fn real() -> &'static (Vec<Range>, Vec<Range>) {
    static REAL: OnceLock<(Vec<Range>, Vec<Range>)> = OnceLock::new();
    REAL.get_or_init(|| (runs(|c| canonical_combining_class(c) != 0), runs(is_public_assigned)))
}

/// The real page as numbers.
pub fn real_numbers() -> Vec<u32> {
    let (nonstarters, assigned) = real();
    numbers(nonstarters, assigned)
}

/// The longest ranges of characters with a property. No range holds a surrogate.
fn runs(property: impl Fn(char) -> bool) -> Vec<Range> {
    joined((0..=LAST_CHARACTER).filter(|c| char::from_u32(*c).is_some_and(&property)))
}

/// The longest ranges of numbers that rise.
pub fn joined(numbers: impl Iterator<Item = u32>) -> Vec<Range> {
    let mut ranges: Vec<Range> = Vec::new();
    for c in numbers {
        match ranges.last_mut() {
            Some((_, last)) if *last + 1 == c => *last = c,
            _ => ranges.push((c, c)),
        }
    }
    ranges
}
