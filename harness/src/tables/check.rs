//! The checks: the generated files are those of the repository; ranges are packed as they should be; the lists, as they are
//! stored, and the two sources differ as is known and no further; the lists, as they are read, are what the compiled original
//! answers by.

use super::{data, files, original, packed, set, Property, Set, PROPERTIES};
use crate::page::LAST_CHARACTER;
use crate::text_utils::is_private_use_area;
use crate::{is_basic_text_end, is_basic_text_start};
use std::fs;
use std::path::Path;
use unicode_normalization::char::canonical_combining_class;

/// ZWJ, which the original names.
const ZWJ: u32 = 0x200D;

/// The two sources of a property.
const SOURCES: [&str; 2] = ["in the original", "in Unicode"];

/// The two characters that the original, and UAX #29, add to SpacingMark.
const ADDED_TO_SPACING_MARK: [u32; 2] = [0xE33, 0xEB3];

/// The files, then both sources: what is found, or the first fault. `text` is the original's file, `folder` that of
/// Unicode's data, `package` that of the crate.
pub fn check(text: &str, folder: &Path, package: &Path) -> Result<String, String> {
    let mut found = vec![
        same(package, "src/tables.rt", &files::src(text)?)?,
        same(package, "specs/Tables.antt", &files::specs(folder)?)?,
        same(package, "specs/Breaks.antt", &files::breaks(folder)?)?,
    ];
    found.push(packed::tried()?);
    let tables = read(&package.join("src/tables.rt"))?;
    for property in &PROPERTIES {
        found.push(stored(text, folder, &tables, property)?);
        found.push(differences(text, folder, property)?);
    }
    let classes = Classes::read(text)?;
    found.push(boundaries(folder, &classes)?);
    found.push(compiled(&classes)?);
    Ok(found.iter().map(|line| format!("{line}\n")).collect())
}

/// Whether a file of the crate is the text that is made.
pub fn same(package: &Path, file: &str, made: &str) -> Result<String, String> {
    let there = read(&package.join(file))?;
    if there == made {
        return Ok(format!("{file}: as generated"));
    }
    // A line more, without text, so that a missing end differs too.
    let (mut theirs, mut ours) = (there.split('\n'), made.split('\n'));
    let mut number = 1;
    loop {
        let (one, other) = (theirs.next(), ours.next());
        if one != other {
            let shown = |line: Option<&str>| line.unwrap_or("(no line)").to_owned();
            let (one, other) = (shown(one), shown(other));
            return Err(format!("{file} differs at line {number}\n  there:     {one}\n  generated: {other}"));
        }
        number += 1;
    }
}

fn read(path: &Path) -> Result<String, String> {
    fs::read_to_string(path).map_err(|error| format!("{}: {error}", path.display()))
}

/// The list that `src/tables.rt` stores, read back: it rises, and has the characters of the original's `matches!`, and Unicode's but for
/// those that the original lacks.
fn stored(text: &str, folder: &Path, tables: &str, property: &Property) -> Result<String, String> {
    let name = property.array;
    let ranges = files::read_back(tables, property)?;
    if ranges.iter().any(|(first, last)| first > last) || ranges.windows(2).any(|pair| pair[0].1 >= pair[1].0) {
        return Err(format!("{name}: as stored, its ranges do not rise"));
    }
    let stored = set(&ranges);
    let original = set(&original::ranges(text, property.function)?);
    let unicode = without(&set(&data::ranges(folder, property)?), property.lacking);
    equal(name, ["as stored", "in the original"], &stored, &original)?;
    equal(name, ["as stored", "in Unicode"], &stored, &unicode)?;
    Ok(format!("{name}: {} characters in {} ranges as stored", stored.len(), ranges.len()))
}

/// How a property differs between Unicode and the original.
fn differences(text: &str, folder: &Path, property: &Property) -> Result<String, String> {
    let name = property.definition;
    let unicode = set(&data::ranges(folder, property)?);
    let original = set(&original::ranges(text, property.function)?);
    equal(name, SOURCES, &original, &without(&unicode, property.lacking))?;
    let lacking = match property.lacking {
        [] => "the same characters in Unicode and in the original".to_owned(),
        lacking => format!("in Unicode and not in the original: {}", list(lacking.iter().copied())),
    };
    Ok(format!("{name}: {} characters; {lacking}", unicode.len()))
}

/// The characters that are no start and no end by the original's lists, and its private use.
struct Classes {
    no_starts: Set,
    no_ends: Set,
    private: Set,
}

impl Classes {
    fn read(text: &str) -> Result<Self, String> {
        let of = |function: &str| original::ranges(text, function).map(|ranges| set(&ranges));
        let mut spacing = of("is_general_category_spacing_mark")?;
        let exceptions = of("is_grapheme_cluster_break_spacing_mark_plus")?;
        spacing.retain(|c| !exceptions.contains(c));
        spacing.extend(ADDED_TO_SPACING_MARK);
        let starts = [Set::from([ZWJ]), of("is_grapheme_extend_not_cgj")?, of("is_emoji_modifier")?, spacing];
        let ends = [
            Set::from([ZWJ]),
            of("indic_syllabic_category_consonant_preceding_repha")?,
            of("indic_syllabic_category_consonant_prefixed")?,
            of("prepended_concatenation_mark")?,
        ];
        Ok(Self { no_starts: union(starts), no_ends: union(ends), private: of("is_private_use_area")? })
    }
}

/// The lists against Grapheme_Cluster_Break.
fn boundaries(folder: &Path, classes: &Classes) -> Result<String, String> {
    let no_starts = without(&data::of_break(folder, &["ZWJ", "Extend", "SpacingMark"])?, &[0x34F]);
    let no_ends = without(&data::of_break(folder, &["ZWJ", "Prepend"])?, &[0x890, 0x891]);
    equal("no start", SOURCES, &classes.no_starts, &no_starts)?;
    equal("no end", SOURCES, &classes.no_ends, &no_ends)?;
    Ok(format!(
        "by the lists {} characters are no start: ZWJ, Extend and SpacingMark without 34f; {} are no end: ZWJ and \
         Prepend without 890 and 891",
        no_starts.len(),
        no_ends.len()
    ))
}

/// The lists against the answers of the original's functions, for every character.
fn compiled(classes: &Classes) -> Result<String, String> {
    let characters = || (0..=LAST_CHARACTER).filter_map(char::from_u32);
    for c in characters() {
        let value = u32::from(c);
        let starter = c.is_ascii() || canonical_combining_class(c) == 0;
        let start = starter && !classes.no_starts.contains(&value);
        let answers = [is_basic_text_start(c), is_basic_text_end(c), is_private_use_area(c)];
        if answers != [start, !classes.no_ends.contains(&value), classes.private.contains(&value)] {
            return Err(format!("{value:x}: the original's answer is not the one by its lists"));
        }
    }
    Ok(format!("the original answers by the lists on all {} characters", characters().count()))
}

fn union(sets: impl IntoIterator<Item = Set>) -> Set {
    sets.into_iter().flatten().collect()
}

/// The set without some of its characters. One that is not there is a difference of its own: it is put in.
fn without(all: &Set, some: &[u32]) -> Set {
    all.symmetric_difference(&some.iter().copied().collect()).copied().collect()
}

/// Whether two sets, which stand at these places, are the same.
fn equal(name: &str, places: [&str; 2], one: &Set, other: &Set) -> Result<(), String> {
    if one == other {
        return Ok(());
    }
    let (more, less) = (list(one.difference(other).copied()), list(other.difference(one).copied()));
    let [here, there] = places;
    Err(format!("{name}: an unknown difference: {here} alone {more}, {there} alone {less}"))
}

fn list(characters: impl IntoIterator<Item = u32>) -> String {
    crate::words::list(characters)
}
