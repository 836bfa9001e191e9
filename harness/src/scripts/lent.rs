//! The places that an operation lends, beside those that the documents ask for.

use crate::leaves::valid_prefix;
use crate::utf16::{decode, Order};
use crate::words::{bytes, number};

/// What a call is given.
pub struct Lent {
    /// How many characters it takes: of bytes those of their valid prefix.
    pub length: usize,
    pub room: usize,
    pub needed: usize,
}

/// What the operation lends to a call, none if it lends nothing. What the operation does not say is `known`: of a writer what it keeps
/// and holds, of a commit the number of places that its chunk fills.
pub fn lent(operation: &str, known: usize) -> Option<Lent> {
    let words: Vec<&str> = operation.split(' ').collect();
    let (room, length, needed) = match words.as_slice() {
        ["L", "isolate", room, run @ ..] => (room, run.len(), or_none(run.len(), 2 * run.len() + 1)),
        ["S", "scan", _, room, chunk @ ..] => (room, chunk.len(), or_none(chunk.len(), 3 * chunk.len() + 1)),
        ["S", "commit", _, room, chunk @ ..] => (room, chunk.len(), known),
        ["S", "fin", _, room] => (room, 0, 2),
        ["W", "chars", room, text @ ..] => (room, text.len(), known + 3 * text.len()),
        ["W", "bytes", room, text @ ..] => {
            let length = valid_prefix(&bytes(text).ok()?).chars().count();
            (room, length, known + 3 * length)
        }
        ["U16", "dec", order, room, text @ ..] => {
            let length = decode(Order::named(order)?, usize::MAX, &bytes(text).ok()?).ok()?.len();
            (room, length, length)
        }
        ["U16", "enc", _, room, text @ ..] => (room, text.len(), 4 * text.len()),
        _ => return None,
    };
    Some(Lent { length, room: number(room).ok()? as usize, needed })
}

/// "an empty one none"
fn or_none(length: usize, needed: usize) -> usize {
    if length == 0 {
        0
    } else {
        needed
    }
}
