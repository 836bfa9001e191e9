//! The entries on one character, for every character, with the real page, replacement and the check with both settings of A.5's
//! option, and the check of two runs of two, in which it is the first and the last; then the start class with made-up pages. With a
//! larger step it is one character in so many, and the seed shifts them. Values that are no characters follow, whatever the step.

use super::{operation, real_page_line};
use crate::page::LAST_CHARACTER;

/// Pages that are made up: an ASCII nonstarter, nonstarters before and past CGJ, all of them but the three that may not be.
const MADE_UP: [&str; 3] =
    ["P 1 1 61 0 61 377", "P 2 1 300 370 0 34e 3ff 10ffff", "P 4 1 0 b 21 350 0 9 1f 34e 10ffff 10ffff"];

const ENTRIES: [&str; 4] = ["L replace", "L check", "L end", "L start"];

/// Those that take the option.
const WITH_UNITS: [&str; 2] = ["L replace", "L check"];

/// The edges of the surrogates, what follows the last character, numbers whose low bits are a character that is replaced
/// or no start, and the largest numbers.
const NO_CHARACTERS: [u32; 24] = [
    0xD800, 0xD801, 0xDBFF, 0xDC00, 0xDFFE, 0xDFFF, 0x110000, 0x110001, 0x11FFFF, 0x1FFFFF, 0x200000, 0x200085,
    0x20FEFF, 0x200301, 0x1000085, 0x100200D, 0x7FFFFFFF, 0x80000000, 0x80000061, 0x8000FB03, 0xFFFF0000, 0xFFFF000D,
    0xFFFFFFFE, 0xFFFFFFFF,
];

pub fn script(seed: u64, step: usize) -> impl Iterator<Item = String> {
    let alone = |value: u32| ENTRIES.map(|entry| operation(entry, [value]));
    let with_units = |value: u32| WITH_UNITS.map(|entry| operation(entry, [value, 1]));
    let in_runs = |value: u32| [[value, 0x0A], [0x61, value]].map(|run| operation("A check", run));
    let all = values(seed, step)
        .flat_map(move |value| alone(value).into_iter().chain(with_units(value)).chain(in_runs(value)));
    let starts = MADE_UP.into_iter().flat_map(move |page| {
        std::iter::once(page.to_owned()).chain(values(seed, step).map(|value| operation("L start", [value])))
    });
    std::iter::once(real_page_line()).chain(all).chain(starts)
}

/// The characters, one in `step`, and the values that are none.
fn values(seed: u64, step: usize) -> impl Iterator<Item = u32> {
    let step = step.max(1);
    let skipped = (seed % step as u64) as usize;
    let characters = (0..=LAST_CHARACTER).filter(|c| char::from_u32(*c).is_some());
    characters.skip(skipped).step_by(step).chain(NO_CHARACTERS)
}
