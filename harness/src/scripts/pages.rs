//! Pages, right and wrong. Each rule of document 01 is broken alone, at its limit and one past it: first by cases with
//! a name, then by one damage to a random page that is right.

use super::page_line;
use crate::page::{numbers, real, Range, LAST_CHARACTER, MOST_RANGES};
use crate::random::Random;

/// What a page must have assigned, and what must be no nonstarter.
const ASSIGNED: [u32; 2] = [0x0A, 0x34F];
const STARTERS: [u32; 3] = [0x0A, 0x20, 0x34F];

/// The cases with a name, then random ones.
pub fn script(random: &mut Random, count: usize) -> Vec<String> {
    let mut pages: Vec<Vec<u32>> = named().into_iter().map(|(_, page)| page).collect();
    while pages.len() < count {
        pages.push(random_page(random));
    }
    pages[..count].iter().map(|page| page_line(page)).collect()
}

/// A case: what it shows, and the page.
type Case = (String, Vec<u32>);

/// The cases with a name.
pub fn named() -> Vec<Case> {
    [lengths(), sizes(), orders(), last_characters(), classes(), real_pages()].concat()
}

fn case(name: &str, page: impl Into<Vec<u32>>) -> Case {
    (name.to_owned(), page.into())
}

/// The length is exactly 2 + 2 × (N + A).
fn lengths() -> Vec<Case> {
    vec![
        case("length 0", []),
        case("length 1", [0]),
        case("length 1, a size in it", [1]),
        case("length 2, no range: 0A is not assigned", [0, 0]),
        case("the page of the start", [0, 1, 0, 0x377]),
        case("one number short", [0, 1, 0]),
        case("one number long", [0, 1, 0, 0x377, 0x378]),
        case("one range more than the sizes say", [0, 1, 0, 0x400, 0x377, 0x500]),
        case("one range less than the sizes say", [0, 2, 0, 0x377]),
        case("one nonstarter, one assigned", [1, 1, 0x300, 0, 0x301, 0x377]),
        case("the same, one short", [1, 1, 0x300, 0, 0x301]),
        case("the same, one long", [1, 1, 0x300, 0, 0x301, 0x377, 0]),
        case("firsts and lasts in turn, which is another page", [1, 1, 0x300, 0x301, 0, 0x377]),
    ]
}

/// 0 to 2,048 ranges each.
fn sizes() -> Vec<Case> {
    let mut cases = Vec::new();
    for size in [MOST_RANGES, MOST_RANGES + 1] {
        cases.push(case(&format!("{size} nonstarters"), numbers(&single(size), &[(0, 0x377)])));
        cases.push(case(&format!("{size} assigned"), numbers(&[], &assigned_of(size))));
    }
    cases.push(case("2048 of both", numbers(&single(MOST_RANGES), &assigned_of(MOST_RANGES))));
    // Sums and products of these wrap at 32 bits, some of them to the length of the page.
    for (n, a) in [
        (0xffff_ffff, 0),
        (0, 0xffff_ffff),
        (0xffff_ffff, 1),
        (1, 0xffff_ffff),
        (0xffff_ffff, 2),
        (0xffff_ffff, 0xffff_ffff),
        (0x8000_0000, 0),
        (0, 0x8000_0000),
        (0x8000_0000, 0x8000_0000),
        (0x7fff_ffff, 0),
        (0x7fff_ffff, 1),
        (0x8000_0000, 1),
        (0, 0x8000_0001),
        (0xffff_f800, 0x801),
        (0x801, 0),
    ] {
        cases.push(case("a size that is too large, alone", [n, a]));
        cases.push(case("a size that is too large, one range", [n, a, 0, 0x377]));
    }
    cases
}

/// `size` ranges of one nonstarter each, adjoining.
fn single(size: u32) -> Vec<Range> {
    (0x400..0x400 + size).map(|c| (c, c)).collect()
}

/// `size` assigned ranges.
fn assigned_of(size: u32) -> Vec<Range> {
    let mut ranges = vec![(0, 0x377)];
    ranges.extend(single(size - 1));
    ranges
}

/// Every first is at most its last, every first exceeds the last before it, in each group alone.
fn orders() -> Vec<Case> {
    let right: [Range; 3] = [(0, 0x20), (0x30, 0x34F), (0x400, 0x500)];
    let marks: [Range; 3] = [(0x300, 0x310), (0x350, 0x360), (0x370, 0x370)];
    let with = |at: usize, range: Range, base: &[Range; 3]| {
        let mut ranges = *base;
        ranges[at] = range;
        ranges
    };
    vec![
        case("three of each", numbers(&marks, &right)),
        case("a first equal to its last", numbers(&[], &with(2, (0x400, 0x400), &right))),
        case("the first range's first above its last", numbers(&with(0, (0x311, 0x310), &marks), &right)),
        case("an assigned first above its last", numbers(&marks, &with(2, (0x501, 0x500), &right))),
        case("a nonstarter first above its last", numbers(&with(1, (0x361, 0x360), &marks), &right)),
        case("an assigned first equal to the last before it", numbers(&marks, &with(1, (0x20, 0x34F), &right))),
        case("one above it: adjoining", numbers(&marks, &with(1, (0x21, 0x34F), &right))),
        case("a nonstarter first equal to the last before it", numbers(&with(1, (0x310, 0x360), &marks), &right)),
        case("one above it: adjoining", numbers(&with(1, (0x311, 0x360), &marks), &right)),
        case("a range inside the one before it", numbers(&marks, &[(0, 0x377), (0x100, 0x200)])),
        case("a range twice", numbers(&marks, &[(0, 0x377), (0, 0x377)])),
        case("two ranges in the other order", numbers(&marks, &[(0x300, 0x377), (0, 0x2ff)])),
        case("the groups may overlap", numbers(&[(0x300, 0x301)], &[(0, 0x10), (0x200, 0x377)])),
        case("assigned may begin below the last nonstarter", numbers(&[(0x10fffe, 0x10ffff)], &right)),
    ]
}

/// No last exceeds 10FFFF.
fn last_characters() -> Vec<Case> {
    let mut cases = Vec::new();
    for last in [LAST_CHARACTER - 1, LAST_CHARACTER, LAST_CHARACTER + 1, 0xffff_ffff] {
        let top = (0x400, last);
        cases.push(case(&format!("an assigned last of {last:x}"), numbers(&[], &[(0, 0x377), top])));
        cases.push(case(&format!("a nonstarter last of {last:x}"), numbers(&[top], &[(0, 0x377)])));
    }
    cases.push(case("a range of 110000 alone", numbers(&[], &[(0, 0x377), (0x110000, 0x110000)])));
    cases.push(case("all numbers up to 10ffff", numbers(&[], &[(0, LAST_CHARACTER)])));
    cases.push(case("surrogates are numbers like others", numbers(&[(0xd800, 0xdfff)], &[(0, 0xd900)])));
    cases.push(case("10ffff in the first range, none after it", numbers(&[(0x400, LAST_CHARACTER)], &[(0, 0x377)])));
    cases
}

/// 0A and 34F are assigned; 0A, 20 and 34F are no nonstarters.
fn classes() -> Vec<Case> {
    let all = [(0, 0x377)];
    let mut cases = vec![
        case("0A and 34F assigned, each alone", numbers(&[], &[(0x0A, 0x0A), (0x34F, 0x34F)])),
        case("nothing assigned, a nonstarter", numbers(&[(0x300, 0x301)], &[])),
        case("a nonstarter below 0A", numbers(&[(0x09, 0x09)], &all)),
        case(
            "nonstarters around 0A, 20 and 34F",
            numbers(&[(0, 0x09), (0x0B, 0x1F), (0x21, 0x34E), (0x350, 0x377)], &all),
        ),
    ];
    for c in ASSIGNED {
        cases.push(case(&format!("{c:x} not assigned"), numbers(&[], &without(&all, c))));
        cases.push(case(&format!("assigned up to {c:x}"), numbers(&[], &with_needed(&[(0, c)]))));
        cases.push(case(&format!("assigned up to below {c:x}"), numbers(&[], &[(0, c - 1)])));
        cases.push(case(&format!("assigned from {c:x}"), numbers(&[], &with_needed(&[(c, 0x377)]))));
        cases.push(case(&format!("assigned from above {c:x}"), numbers(&[], &[(c + 1, 0x377)])));
    }
    for c in STARTERS {
        cases.push(case(&format!("{c:x} a nonstarter"), numbers(&[(c, c)], &all)));
        cases.push(case(&format!("{c:x} the first of nonstarters"), numbers(&[(c, c + 1)], &all)));
        cases.push(case(&format!("{c:x} the last of nonstarters"), numbers(&[(c - 1, c)], &all)));
        cases.push(case(&format!("nonstarters up to below {c:x}"), numbers(&[(c - 1, c - 1)], &all)));
        cases.push(case(&format!("nonstarters from above {c:x}"), numbers(&[(c + 1, c + 1)], &all)));
    }
    cases
}

/// The page that the original's functions give.
fn real_pages() -> Vec<Case> {
    let (nonstarters, assigned) = real();
    let page = numbers(nonstarters, assigned);
    vec![
        case("the real page", page.clone()),
        case("the real page, one short", &page[..page.len() - 1]),
        case("the real page without 34F", numbers(nonstarters, &without(assigned, 0x34F))),
    ]
}

/// The ranges without a number.
fn without(ranges: &[Range], c: u32) -> Vec<Range> {
    let mut left = Vec::new();
    for (first, last) in ranges.iter().copied() {
        if first <= c && c <= last {
            left.extend((first < c).then(|| (first, c - 1)));
            left.extend((c < last).then(|| (c + 1, last)));
        } else {
            left.push((first, last));
        }
    }
    left
}

/// The ranges with a number: a range of its own if none holds it.
fn with(ranges: &[Range], c: u32) -> Vec<Range> {
    let mut ranges = ranges.to_vec();
    if !ranges.iter().any(|(first, last)| *first <= c && c <= *last) {
        ranges.push((c, c));
        ranges.sort_unstable();
    }
    ranges
}

fn with_needed(ranges: &[Range]) -> Vec<Range> {
    ASSIGNED.into_iter().fold(ranges.to_vec(), |ranges, c| with(&ranges, c))
}

/// A random page: right ones and damaged ones by turns.
pub fn random_page(random: &mut Random) -> Vec<u32> {
    let (nonstarters, assigned) = random_right(random);
    if random.once_in(3) {
        numbers(&nonstarters, &assigned)
    } else {
        damaged(random, nonstarters, assigned)
    }
}

/// The ranges of a page that is right.
pub fn random_right(random: &mut Random) -> (Vec<Range>, Vec<Range>) {
    let nonstarters = rising(random);
    let assigned = rising(random);
    let nonstarters = STARTERS.into_iter().fold(nonstarters, |ranges, c| without(&ranges, c));
    (nonstarters, with_needed(&assigned))
}

/// Rising ranges: few or some, near or far, many of them adjoining.
fn rising(random: &mut Random) -> Vec<Range> {
    let size = random.pick(&[0, 1, 1, 2, 3, 4, 6, 9, 30]);
    let mut ranges = Vec::new();
    let mut next = random.pick(&[0, 0, 5, 0x0A, 0x20, 0x300, 0x34F, 0x350]);
    for _ in 0..size {
        let first = next + step(random);
        let last = (first + step(random)).min(LAST_CHARACTER);
        if first > last {
            break;
        }
        ranges.push((first, last));
        next = last + 1;
    }
    ranges
}

fn step(random: &mut Random) -> u32 {
    let most = random.pick(&[0, 0, 1, 0x10, 0x100, 0x400, 0x4000, 0x40000]);
    random.between(0, most)
}

/// A page with one damage; a few damages leave a page right.
fn damaged(random: &mut Random, nonstarters: Vec<Range>, assigned: Vec<Range>) -> Vec<u32> {
    match random.below(5) {
        0 => damaged_length(random, numbers(&nonstarters, &assigned)),
        1 => damaged_size(random, numbers(&nonstarters, &assigned)),
        2 => damaged_class(random, &nonstarters, &assigned),
        _ if random.once_in(2) && !nonstarters.is_empty() => {
            let nonstarters = damaged_order(random, nonstarters);
            numbers(&nonstarters, &assigned)
        }
        _ => {
            let assigned = damaged_order(random, assigned);
            numbers(&nonstarters, &assigned)
        }
    }
}

fn damaged_length(random: &mut Random, mut page: Vec<u32>) -> Vec<u32> {
    match random.below(5) {
        0 => page.truncate(page.len() - 1),
        1 => page.push(random.pick(&[0, 0x377, LAST_CHARACTER])),
        2 => page.truncate(random.below(page.len())),
        3 => page.extend([0x400, 0x401]),
        _ => {
            let at = random.below(page.len());
            page.remove(at);
        }
    }
    page
}

fn damaged_size(random: &mut Random, mut page: Vec<u32>) -> Vec<u32> {
    let at = random.below(2);
    match random.below(4) {
        // One range goes over to the other group: it may be right there.
        0 if page[at] > 0 => {
            page[at] -= 1;
            page[1 - at] += 1;
        }
        1 => page[at] = page[at].wrapping_add(random.pick(&[0x8000_0000, 0x4000_0000, 0xffff_ffff, 0x800])),
        2 => page[at] += 1,
        _ => page[at] = page[at].saturating_sub(1),
    }
    page
}

fn damaged_class(random: &mut Random, nonstarters: &[Range], assigned: &[Range]) -> Vec<u32> {
    if random.once_in(2) {
        numbers(nonstarters, &without(assigned, random.pick(&ASSIGNED)))
    } else {
        numbers(&with(nonstarters, random.pick(&STARTERS)), assigned)
    }
}

fn damaged_order(random: &mut Random, mut ranges: Vec<Range>) -> Vec<Range> {
    let at = random.below(ranges.len());
    let end = ranges.len() - 1;
    match random.below(6) {
        0 => ranges[at].0 = ranges[at].1 + 1,
        1 if at > 0 => ranges[at].0 = ranges[at - 1].1,
        2 if at > 0 => ranges[at].0 = ranges[at - 1].1 + 1,
        3 => ranges[end].1 = random.pick(&[LAST_CHARACTER, LAST_CHARACTER + 1, 0xffff_ffff]),
        4 if at > 0 => ranges.swap(at - 1, at),
        _ => {
            let range = ranges[at];
            ranges.insert(at, range);
        }
    }
    ranges
}
