//! The script of the stored sample: every case with a name, under its name, then a seeded choice.

use super::{page_line, pages, utf8, utf8_line};
use crate::random::Random;

/// The cases with a name, then `count` random ones, pages and byte strings by turns.
pub fn script(random: &mut Random, count: usize) -> Vec<String> {
    let mut lines = vec!["# Byte strings by name.".to_owned()];
    for (name, bytes) in utf8::named() {
        lines.extend([format!("# {name}"), utf8_line(&bytes)]);
    }
    lines.push("# Pages by name.".to_owned());
    for (name, page) in pages::named() {
        lines.extend([format!("# {name}"), page_line(&page)]);
    }
    lines.push("# A seeded choice.".to_owned());
    for at in 0..count {
        lines.push(match at % 3 {
            0 => page_line(&pages::random_page(random)),
            _ => utf8_line(&utf8::random_bytes(random)),
        });
    }
    lines
}
