//! The lists of the original: the ranges of a function's one `matches!`, in its order.

use crate::page::{Range, LAST_CHARACTER};

/// Where the function stands in the text.
pub fn place(text: &str, function: &str) -> Result<usize, String> {
    let start = format!("fn {function}(");
    let mut places = text.match_indices(&start).map(|(at, _)| at);
    match (places.next(), places.next()) {
        (Some(at), None) => Ok(at),
        _ => Err(format!("{function}: it does not stand there exactly once")),
    }
}

/// The ranges of the function's `matches!`.
pub fn ranges(text: &str, function: &str) -> Result<Vec<Range>, String> {
    let from = &text[place(text, function)?..];
    let body = from.split("\n}\n").next().unwrap_or(from);
    let patterns = patterns(body).ok_or(format!("{function}: not one `matches!` of `c`"))?;
    let list = patterns.trim().trim_end_matches(',');
    list.split('|').map(|pattern| range(pattern.trim()).map_err(|why| format!("{function}: {why}"))).collect()
}

/// All that stands between `matches!(c,` and the closing parenthesis, without comments. Patterns have no parenthesis.
fn patterns(body: &str) -> Option<String> {
    let code: Vec<&str> = body.lines().map(|line| line.split("//").next().unwrap_or(line)).collect();
    let code = code.join("\n");
    let (_, after) = code.split_once("matches!(")?;
    if after.contains("matches!(") {
        return None;
    }
    let (arguments, _) = after.split_once(')')?;
    arguments.trim_start().strip_prefix("c,").map(str::to_owned)
}

/// One character, or a range of them.
fn range(pattern: &str) -> Result<Range, String> {
    let (first, last) = pattern.split_once("..=").unwrap_or((pattern, pattern));
    match (character(first)?, character(last)?) {
        (first, last) if first <= last && last <= LAST_CHARACTER => Ok((first, last)),
        _ => Err(format!("{pattern:?} is no range of characters")),
    }
}

/// A character in the form `'\u{34f}'`.
fn character(word: &str) -> Result<u32, String> {
    let digits = word.strip_prefix("'\\u{").and_then(|rest| rest.strip_suffix("}'"));
    digits
        .and_then(|digits| u32::from_str_radix(digits, 16).ok())
        .ok_or(format!("{word:?} is no pattern of a character"))
}
