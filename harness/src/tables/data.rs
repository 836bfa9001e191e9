//! Unicode's data files, version 15.0.0: lines of a character or a range, a semicolon and a value, with comments from
//! `#` on.

use super::{set, Property, Set, Source, BREAK, CATEGORY};
use crate::page::{joined, Range};
use std::fs;
use std::path::Path;

/// The ranges of a property.
pub fn ranges(folder: &Path, property: &Property) -> Result<Vec<Range>, String> {
    match property.source {
        Source::File(file, value) => of_file(folder, file, value),
        Source::SpacingMarkExceptions => spacing_mark_exceptions(folder),
    }
}

/// The ranges whose Grapheme_Cluster_Break is this one.
pub fn break_ranges(folder: &Path, value: &str) -> Result<Vec<Range>, String> {
    of_file(folder, BREAK, value)
}

/// The characters whose Grapheme_Cluster_Break is one of these.
pub fn of_break(folder: &Path, values: &[&str]) -> Result<Set, String> {
    let mut all = Set::new();
    for value in values {
        all.append(&mut set(&of_file(folder, BREAK, value)?));
    }
    Ok(all)
}

/// The ranges of a file with a value, in the file's order, which rises.
pub fn of_file(folder: &Path, file: &str, value: &str) -> Result<Vec<Range>, String> {
    let ranges = of_values(folder, file, |other| other == value)?;
    let rises = ranges.windows(2).all(|pair| pair[0].1 < pair[1].0);
    if ranges.is_empty() || !rises {
        return Err(format!("{file}: the ranges of {value} are none, or do not rise"));
    }
    Ok(ranges)
}

/// The ranges of a file whose value is a wanted one, in the file's order.
pub fn of_values(folder: &Path, file: &str, wanted: impl Fn(&str) -> bool) -> Result<Vec<Range>, String> {
    let path = folder.join(file);
    let text = fs::read_to_string(&path).map_err(|error| format!("{}: {error}", path.display()))?;
    if !is_of_version(&text) {
        return Err(format!("{file}: not of Unicode 15.0.0"));
    }
    let mut ranges = Vec::new();
    for line in text.lines() {
        let fields = line.split('#').next().unwrap_or(line);
        if fields.split(';').nth(1).is_some_and(|field| wanted(field.trim())) {
            ranges.push(range(fields).ok_or(format!("{file}: {line:?} is no range"))?);
        }
    }
    Ok(ranges)
}

/// The header names the version: of Unicode, or in the emoji data that of Emoji.
fn is_of_version(text: &str) -> bool {
    let mut header = text.lines().take_while(|line| line.starts_with('#'));
    header.any(|line| line.ends_with("-15.0.0.txt") || line.contains("Emoji Version 15.0 "))
}

/// The first field: a character, or the first and the last one with two dots between.
fn range(line: &str) -> Option<Range> {
    let field = line.split(';').next()?.trim();
    let (first, last) = field.split_once("..").unwrap_or((field, field));
    Some((u32::from_str_radix(first, 16).ok()?, u32::from_str_radix(last, 16).ok()?))
}

/// The spacing marks whose Grapheme_Cluster_Break is neither SpacingMark nor Extend. Two that adjoin stand one by one.
fn spacing_mark_exceptions(folder: &Path) -> Result<Vec<Range>, String> {
    let marks = set(&of_file(folder, CATEGORY, "Mc")?);
    let breaks = of_break(folder, &["SpacingMark", "Extend"])?;
    let mut ranges = Vec::new();
    for (first, last) in joined(marks.difference(&breaks).copied()) {
        if first + 1 == last {
            ranges.extend([(first, first), (last, last)]);
        } else {
            ranges.push((first, last));
        }
    }
    Ok(ranges)
}
