//! The option of document 02, A.5: its three signs, and the operations that have it on.

use crate::words::number;

/// The signs for ohm, kelvin and angstrom.
pub const SIGNS: [u32; 3] = [0x2126, 0x212A, 0x212B];

/// Whether an operation has the option on.
pub fn has_option(operation: &str) -> bool {
    let mut words = operation.split(' ');
    match [words.next(), words.next(), words.next()] {
        [Some("L"), Some("replace" | "check"), _] => words.next() == Some("1"),
        [Some("S"), Some("ask" | "scan" | "commit"), Some(options)] => matches!(options, "4" | "5" | "6" | "7"),
        _ => false,
    }
}

/// Whether it does and, if it is a call of a scanner, has a sign in its chunk.
pub fn has_units(operation: &str) -> bool {
    // A room stands before the chunk, but where it is asked about.
    let before = if operation.starts_with("S ask") { 3 } else { 4 };
    let is_sign = |word: &str| number(word).is_ok_and(|c| SIGNS.contains(&c));
    has_option(operation) && (operation.starts_with('L') || operation.split(' ').skip(before).any(is_sign))
}
