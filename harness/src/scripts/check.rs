//! The check of a run, document 02, A.1: every short run of characters that differ in what is wrong with them, so each fault alone
//! and each pair that can meet, at one place and at the ends of a run; plain characters by the hundred and the thousand with
//! something awkward at any place; the queues of finished streams, as they are and with a change; runs and pages as they come.

use super::stretches::{around, thousands, Awkward};
use super::{alphabet, operation, page_line};
use crate::page::real_numbers;
use crate::random::Random;
use crate::replay::Oracle;
use crate::words::listed;
use std::ops::RangeInclusive;

/// Nothing wrong and a newline; refused: ESC, a control, an excepted one, one that is no start either; no start; neither start nor
/// end; no end, one of each of its lists; what a page may make a nonstarter, and 34F; no character.
const CHARACTERS: [u32; 16] =
    [0x61, 0xE9, 0x0A, 0x1B, 0x7F, 0x2126, 0x17B4, 0x301, 0x903, 0x200D, 0x600, 0xD4E, 0x111C2, 0x378, 0x34F, 0xD800];

/// The page of the start; 378 a nonstarter; marks nonstarters and all assigned; 61 a nonstarter; a wrong one.
const PAGES: [&[u32]; 5] = [
    &[0, 1, 0, 0x377],
    &[1, 1, 0x378, 0, 0x378, 0x377],
    &[2, 1, 0x300, 0x370, 0, 0x34E, 0x3FF, 0x10FFFF],
    &[1, 1, 0x61, 0, 0x61, 0x377],
    &[0, 1, 0, 0x377, 0],
];

/// From so many operations on the short runs have four characters, else three.
const MANY: usize = 1_000_000;

/// So many that are drawn come before the longer ones of the short runs.
const SOME: usize = 60;

/// The longest text of a stream: its queue is under the protocol's limit.
const LONGEST: usize = 2_000;

pub fn script(random: &mut Random, count: usize) -> Vec<String> {
    let most = if count < MANY { 3 } else { 4 };
    let pages: Vec<Vec<u32>> = PAGES.iter().map(|page| page.to_vec()).chain([real_numbers()]).collect();
    let every = |lengths: RangeInclusive<u32>| {
        let of_page = move |page: &Vec<u32>| {
            std::iter::once(page_line(page)).chain(lengths.clone().flat_map(runs).map(check)).collect::<Vec<_>>()
        };
        pages.iter().flat_map(of_page).collect::<Vec<_>>()
    };
    let mut drawn = Drawn { oracle: Oracle::new(false), awkward: Awkward::gather() };
    // The shortest, and some that are drawn, come first: the stored sample has these.
    let mut lines = every(0..=1);
    lines.extend(drawn.lines(random, SOME));
    lines.extend(every(2..=most));
    let rest = count.saturating_sub(lines.len());
    lines.extend(drawn.lines(random, rest));
    lines.truncate(count);
    lines
}

fn check(run: Vec<u32>) -> String {
    operation("A check", run)
}

/// Every run of so many characters.
fn runs(length: u32) -> impl Iterator<Item = Vec<u32>> {
    let count = CHARACTERS.len();
    (0..count.pow(length)).map(move |at| (0..length).map(|place| CHARACTERS[at / count.pow(place) % count]).collect())
}

/// What the drawn runs come from.
struct Drawn {
    /// It runs along, so that queues are those of the current page.
    oracle: Oracle,
    awkward: Awkward,
}

impl Drawn {
    /// So many lines: a page, and then runs, with a page now and then.
    fn lines(&mut self, random: &mut Random, count: usize) -> Vec<String> {
        let line = |at| if at == 0 || random.once_in(30) { self.page(random) } else { check(self.run(random)) };
        (0..count).map(line).collect()
    }

    fn page(&mut self, random: &mut Random) -> String {
        let line = page_line(&alphabet::page(random));
        self.oracle.answer(&line);
        line
    }

    fn run(&mut self, random: &mut Random) -> Vec<u32> {
        let accepted = random.once_in(2);
        match random.below(12) {
            0 => {
                let run = thousands(random, &self.awkward, accepted);
                ended(random, run)
            }
            1..=4 => {
                let run = around(random, &self.awkward, accepted);
                ended(random, run)
            }
            5..=7 => {
                let queue = self.queue(random);
                changed(random, queue)
            }
            8 => alphabet::run(random, 40),
            _ => {
                let run = alphabet::run(random, 8);
                ended(random, run)
            }
        }
    }

    /// The queue of a text that is scanned in one chunk and finished; of a wrong page none.
    fn queue(&mut self, random: &mut Random) -> Vec<u32> {
        let text = if random.once_in(8) {
            alphabet::long(random, LONGEST, alphabet::character)
        } else {
            alphabet::run(random, 40)
        };
        let room = 3 * text.len() as u32 + 1;
        let scan = operation("S scan", [random.between(0, 7), room].into_iter().chain(text));
        let answers = ["S new".to_owned(), scan, "S fin e 2".to_owned()].map(|line| self.oracle.answer(&line));
        answers.iter().flatten().flat_map(|answer| listed(answer)).collect()
    }
}

/// A run with a last newline, mostly.
fn ended(random: &mut Random, mut run: Vec<u32>) -> Vec<u32> {
    if !random.once_in(4) {
        run.push(0x0A);
    }
    run
}

/// A queue, in half of the cases with a character taken out, put in or exchanged, at an end or at any place.
fn changed(random: &mut Random, mut queue: Vec<u32>) -> Vec<u32> {
    if queue.is_empty() || random.once_in(2) {
        return queue;
    }
    let any = random.below(queue.len());
    let at = random.pick(&[0, queue.len() - 1, any]);
    let c = random.pick(&CHARACTERS);
    match random.below(4) {
        0 => drop(queue.remove(at)),
        1 => queue.insert(at, c),
        2 => queue.push(c),
        _ => queue[at] = c,
    }
    queue
}
