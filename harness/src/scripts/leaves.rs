//! The entries on one character, at every place where an answer changes from one character to the next; replacement and the check with
//! A.5's option on and off.

use super::{alphabet, operation, page_line};
use crate::leaves::{check, end, replacement, start};
use crate::page::LAST_CHARACTER;
use crate::properties;
use crate::random::Random;

/// Places where an answer changes, values that are no characters, and pages between them.
pub fn script(random: &mut Random, count: usize) -> Vec<String> {
    properties::answer_from(None);
    let conversions = edges(|value| {
        let reason = check(true, value).ok().flatten().map(|reason| reason.place);
        (replaced(false, value), replaced(true, value), reason)
    });
    let classes = edges(|value| (start(true, value), end(value)));
    let mut lines = Vec::new();
    while lines.len() < count {
        lines.push(match random.below(61) {
            0 => page_line(&alphabet::page(random)),
            at if at % 2 == 0 => {
                let entry = random.pick(&["L replace", "L check"]);
                let units = random.once_in(2).then_some(1);
                operation(entry, std::iter::once(value(random, &conversions)).chain(units))
            }
            _ => operation(random.pick(&["L start", "L end"]), [value(random, &classes)]),
        });
    }
    lines
}

/// A value: mostly at an edge.
fn value(random: &mut Random, edges: &[u32]) -> u32 {
    match random.below(10) {
        0 => random.between(0, LAST_CHARACTER + 2),
        1 => alphabet::character(random),
        2 => random.pick(&[0xD7FF, 0xD800, 0xDFFF, 0xE000, LAST_CHARACTER, LAST_CHARACTER + 1, 0xFFFF_FFFF]),
        _ => random.pick(edges) + random.between(0, 1),
    }
}

/// The last value before each change of an answer.
fn edges<T: PartialEq>(answer: impl Fn(u32) -> T) -> Vec<u32> {
    let mut edges = Vec::new();
    let mut before = answer(0);
    for value in 1..=LAST_CHARACTER {
        let after = answer(value);
        if after != before {
            edges.push(value - 1);
        }
        before = after;
    }
    edges
}

/// What a character is replaced by, if by something else.
fn replaced(units: bool, value: u32) -> Option<Vec<char>> {
    replacement(units, value).ok().filter(|out| out.iter().map(|c| u32::from(*c)).ne([value]))
}
