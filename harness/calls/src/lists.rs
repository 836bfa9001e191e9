//! A call with each page that has a name, right or wrong; and lists of calls drawn from a seed, each from a fresh record on,
//! with refused calls between: every refusal at its limit and just past it, and lengths that are no multiple of four.

use crate::ours::Record;
use crate::sides::{bytes, Call, Outcome, Sides};
use harness::random::Random;
use harness::scripts::scan::{chunk, page};
use harness::scripts::{alphabet, pages};
use harness::text_input::scanner::needed;

/// A long chunk has fewer than so many characters.
const LONG: usize = 200;

/// One call with each page by name, and with some bytes more or fewer.
pub fn named_pages(sides: &mut Sides) -> Result<(), String> {
    for page in around_named() {
        sides.take_page(page);
        sides.call(Record::FRESH, Call::Scan(0, &[0x301], &[]), 4 * 4)?;
    }
    Ok(())
}

/// Each page by name as bytes, as it stands and with 1 to 9 more or fewer.
pub fn around_named() -> impl Iterator<Item = Vec<u8>> {
    pages::named().into_iter().flat_map(|(_, page)| {
        let page = bytes(&page);
        let more = (0..=9).map(|more| [&page[..], &[0; 9][..more]].concat());
        let fewer = (1..=9).map(|fewer| page[..page.len().saturating_sub(fewer)].to_vec());
        more.chain(fewer).collect::<Vec<_>>()
    })
}

pub fn random_lists(sides: &mut Sides, seed: u64, count: u64) -> Result<(), String> {
    let random = &mut Random::new(seed);
    let end = sides.calls() + count;
    let mut record = Record::FRESH;
    let mut right = bytes(&[0, 1, 0, 0x377]);
    sides.take_page(right.clone());
    while sides.calls() < end {
        record = match random.below(30) {
            0 => Record::FRESH,
            1 => another_page(sides, random, record, &mut right)?,
            2..=5 => finish(sides, random, record)?,
            _ => scan(sides, random, record)?,
        };
    }
    Ok(())
}

/// Another page. A wrong one is there for one call.
fn another_page(sides: &mut Sides, random: &mut Random, record: Record, right: &mut Vec<u8>) -> Outcome {
    let page = page(random);
    let page = lent(random, &page);
    if sides.take_page(page.clone()) {
        *right = page;
        return Ok(record);
    }
    let after = scan(sides, random, record);
    sides.take_page(right.clone());
    after
}

/// A page as bytes, now and then with some more or fewer.
pub fn lent(random: &mut Random, page: &[u32]) -> Vec<u8> {
    let mut page = bytes(page);
    match random.below(8) {
        0 => page.extend(&[0; 7][random.below(7)..]),
        1 => page.truncate(page.len().saturating_sub(random.below(7) + 1)),
        _ => {}
    }
    page
}

fn finish(sides: &mut Sides, random: &mut Random, record: Record) -> Outcome {
    let places = random.pick(&[0, 1, 1, 2, 2, 2, 2, 2, 3, 9]);
    sides.call(record, Call::Finish(random.between(0, 1)), 4 * places + odd(random))
}

fn scan(sides: &mut Sides, random: &mut Random, record: Record) -> Outcome {
    let chunk = if random.once_in(50) { alphabet::run(random, LONG) } else { chunk(random) };
    let count = count(random, record.count, chunk.len() as u32);
    let room = 4 * alphabet::room(random, needed(&chunk)) as usize + odd(random);
    let call = Call::Scan(random.between(0, 7), &chunk, &[0x0A, 0x0D, 0xD8][..odd(random)]);
    sides.call(Record { count, ..record }, call, room)
}

/// The count before a chunk of n: mostly as it stands; the limit, one past it, and small ones again.
fn count(random: &mut Random, count: u32, n: u32) -> u32 {
    match random.below(40) {
        0 => u32::MAX - n,
        1 => (u32::MAX - n).saturating_add(1),
        2..=9 => random.between(0, 9),
        _ => count,
    }
}

/// Some bytes that are no whole four.
pub fn odd(random: &mut Random) -> usize {
    random.below(8).saturating_sub(4)
}
