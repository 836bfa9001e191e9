//! Lists of calls on a scanner that ask first and then commit: into as many places as asking answered, one fewer, more, none; with
//! refused calls, scans and finishes between. The oracle runs along, so that the number is known.

use super::scan::{at_limit, chunk, finish, long_chunk, page, scan_with, LONGEST};
use super::signs::SIGNS;
use super::talk::{ask, commit, Talk};
use super::{alphabet, page_line};
use crate::page::Page;
use crate::random::Random;
use crate::words::numbered;

pub fn script(random: &mut Random, count: usize) -> Vec<String> {
    let mut talk = Talk::new();
    talk.say("S new".to_owned());
    while talk.lines.len() < count {
        calls(random, &mut talk);
    }
    talk.lines.truncate(count);
    talk.lines
}

fn calls(random: &mut Random, talk: &mut Talk) {
    match random.below(40) {
        0..=3 => drop(talk.say("S new".to_owned())),
        4 => page_between(random, talk),
        5 => count_at_limit(random, talk),
        6..=9 => drop(talk.say(finish(random))),
        10 => {
            let chunk = chunk(random);
            talk.say(scan_with(random, &chunk, alphabet::room));
        }
        11 => {
            let chunk = long_chunk(random);
            price(random, talk, &chunk, alphabet::close_room);
        }
        12 => fullest(random, talk),
        // An empty chunk, which spends the chance to drop FEFF where it is committed.
        13 => price(random, talk, &[], alphabet::room),
        14 => {
            let mut chunk = chunk(random);
            chunk.push(random.pick(&alphabet::NO_CHARACTERS));
            price(random, talk, &chunk, alphabet::room);
        }
        _ => {
            let chunk = chunk(random);
            price(random, talk, &chunk, alphabet::room);
        }
    }
}

/// Asking about a chunk, mostly with a commit of it, and now and then one before it that is lent one place too few. Where a sign for a
/// unit comes first, and now and then elsewhere, the other setting of A.5's option is asked about before: it may fill other places.
fn price(random: &mut Random, talk: &mut Talk, chunk: &[u32], room: fn(&mut Random, usize) -> u32) {
    let options = random.between(0, 7);
    if chunk.first().is_some_and(|c| SIGNS.contains(c)) || random.once_in(8) {
        talk.say(ask(options ^ 4, chunk));
    }
    // Where asking is refused, so is the commit, whatever the places.
    let places = numbered(&talk.say(ask(options, chunk))).unwrap_or(random.below(9));
    if random.once_in(4) && places > 0 {
        talk.say(commit(options, places - 1, chunk));
    }
    if !random.once_in(8) {
        let room = room(random, places) as usize;
        talk.say(commit(options, room, chunk));
    }
}

/// A page. A wrong one is current for one price.
fn page_between(random: &mut Random, talk: &mut Talk) {
    let page = page(random);
    talk.say(page_line(&page));
    if Page::read(&page).is_none() {
        let chunk = chunk(random);
        price(random, talk, &chunk, alphabet::room);
        talk.say("P 0 1 0 377".to_owned());
    }
}

/// A count that a chunk takes to its limit or one past it.
fn count_at_limit(random: &mut Random, talk: &mut Talk) {
    let (count, chunk) = at_limit(random);
    talk.say(format!("S count {count:x}"));
    price(random, talk, &chunk, alphabet::room);
    talk.say(format!("S count {:x}", random.below(8)));
}

/// A long chunk that fills the most places that so many characters can: after 0D, three for each and one.
fn fullest(random: &mut Random, talk: &mut Talk) {
    let chunk = vec![0xFB03; alphabet::long_length(random, LONGEST)];
    talk.say(commit(0, 1, &[0xD]));
    price(random, talk, &chunk, alphabet::close_room);
}
