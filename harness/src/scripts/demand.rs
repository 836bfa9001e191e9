//! Demand 3 from end to end: a text in chunks, scanned or committed, with refused calls between them, finished as end of file;
//! then its queue written whole to a plain writer, which is closed, checked, and isolated as one run. Each text is cut in two ways. In most
//! passages every call that is to succeed is lent exactly what it needs. The oracle runs along, so that the queue is known;
//! the program `promise` holds the answers to the promise.

use super::talk::{commit, Talk};
use super::{alphabet, operation, page_line};
use crate::leaves::is_excepted;
use crate::page::Page;
use crate::random::Random;
use crate::text_input::scanner::needed;
use crate::words::listed;

/// The longest text, and the longest queue: the places that its write needs are under the protocol's limit.
const LONGEST: usize = 5_000;
const LONGEST_QUEUE: usize = 5_400;

pub fn script(random: &mut Random, count: usize) -> Vec<String> {
    let mut talk = Talk::new();
    while talk.lines.len() < count {
        let before = talk.lines.len();
        if passage(random, &mut talk).is_none() {
            talk.lines.truncate(before);
        }
    }
    talk.lines
}

/// A text from the scanner to the writer; none if its queue is too long for one write.
fn passage(random: &mut Random, talk: &mut Talk) -> Option<()> {
    let page = right_page(random);
    let options = random.between(0, 7);
    let text = text(random, options & 4 != 0);
    let most_over = if random.once_in(3) { 40 } else { 0 };
    talk.say(page_line(&page));
    let queue = taken(random, talk, &page, options, &text, most_over);
    if queue.len() > LONGEST_QUEUE {
        return None;
    }
    taken(random, talk, &page, options, &text, most_over);
    let (n, over) = (queue.len(), over(random, most_over));
    talk.lines.extend(["W new plain".to_owned(), of_queue("W chars", 3 * n + over, &queue), "W close".to_owned()]);
    talk.lines.push(operation("A check", queue.iter().copied()));
    talk.lines.push(of_queue("L isolate", if n == 0 { 0 } else { 2 * n + 1 } + over, &queue));
    Some(())
}

/// Up to so many places more than are needed.
fn over(random: &mut Random, most: usize) -> usize {
    random.below(most + 1)
}

fn right_page(random: &mut Random) -> Vec<u32> {
    loop {
        let page = alphabet::page(random);
        if Page::read(&page).is_some() {
            return page;
        }
    }
}

/// Mostly short, and mostly without the characters whose queue the writer refuses: with A.5's option the signs for units stay.
fn text(random: &mut Random, units: bool) -> Vec<u32> {
    let mut text = if random.once_in(5) {
        alphabet::long(random, LONGEST, alphabet::character)
    } else {
        (0..random.below(40)).map(|_| alphabet::character(random)).collect()
    };
    if !random.once_in(8) {
        text.retain(|c| !is_excepted(units, *c));
    }
    text
}

/// Calls on a scanner, and its queue. The first chunk is not empty if the text is not: an empty one spends the chance to drop FEFF.
fn taken(random: &mut Random, talk: &mut Talk, page: &[u32], options: u32, text: &[u32], most_over: usize) -> Vec<u32> {
    talk.say("S new".to_owned());
    let mut queue = Vec::new();
    let mut rest = text;
    while !rest.is_empty() {
        let least = usize::from(rest.len() == text.len());
        let (chunk, after) = rest.split_at(cut(random, rest.len()).max(least));
        if random.once_in(3) {
            for line in refused(random, talk, page, options, chunk) {
                talk.say(line);
            }
        }
        let over = over(random, most_over);
        let call = if random.once_in(2) {
            scan(options, needed(chunk) + over, chunk)
        } else {
            commit(options, places(talk, options, chunk) + over, chunk)
        };
        queue.extend(listed(&talk.say(call)));
        rest = after;
    }
    if random.once_in(3) {
        talk.say("S fin e 1".to_owned());
    }
    queue.extend(listed(&talk.say(format!("S fin e {:x}", 2 + over(random, most_over)))));
    queue
}

fn places(talk: &mut Talk, options: u32, chunk: &[u32]) -> usize {
    talk.places(options, chunk).expect("a right page, characters and a small count")
}

/// Where the next chunk of so many characters ends: after few of them, but that a long rest is cut at any length or left whole.
fn cut(random: &mut Random, rest: usize) -> usize {
    match random.below(8) {
        0..=3 if rest > 40 => rest.min(alphabet::long_length(random, LONGEST)),
        4 if rest > 40 => rest,
        _ => random.below(rest.min(9) + 1),
    }
}

/// A call that is refused by 8, 1 or 2.
fn refused(random: &mut Random, talk: &mut Talk, page: &[u32], options: u32, chunk: &[u32]) -> Vec<String> {
    let longer = [chunk, &[0x61]].concat();
    match random.below(6) {
        0 => vec![scan(options, needed(&longer) - 1, &longer)],
        1 => vec![scan(options, 100, &[chunk, &[random.pick(&alphabet::NO_CHARACTERS)]].concat())],
        2 => vec![page_line(&[0, 0]), scan(options, 100, chunk), page_line(page)],
        // One place under what it fills; where it fills none, no call.
        3 => {
            let room = places(talk, options, chunk).checked_sub(1);
            room.map(|room| commit(options, room, chunk)).into_iter().collect()
        }
        4 => vec![commit(options, 100, &[chunk, &[random.pick(&alphabet::NO_CHARACTERS)]].concat())],
        _ => vec![page_line(&[0, 0]), commit(options, 100, chunk), page_line(page)],
    }
}

fn scan(options: u32, room: usize, chunk: &[u32]) -> String {
    operation("S scan", [options, room as u32].into_iter().chain(chunk.iter().copied()))
}

fn of_queue(words: &str, room: usize, queue: &[u32]) -> String {
    operation(words, std::iter::once(room as u32).chain(queue.iter().copied()))
}
