//! The entries on one character, UTF-8 and isolation: the original's functions, and what document 01 asks before them.
//! A refusal is its number. `units` is the option of document 02, A.5.

use crate::words::characters;
use crate::{check_basic_text_char, is_basic_text_end, is_basic_text_start, replace, BasicTextError, PreNormalization};
use crate::{check_units, replace_units};
use std::collections::VecDeque;

/// "1 a value in D800..DFFF or above 10FFFF", which is what is no `char`.
fn character(value: u32) -> Result<char, u32> {
    char::from_u32(value).ok_or(1)
}

/// The replacement of a character.
pub fn replacement(units: bool, value: u32) -> Result<Vec<char>, u32> {
    let mut queue = VecDeque::new();
    let replace = if units { replace_units::replace } else { replace };
    replace(character(value)?, &mut queue);
    Ok(queue.into())
}

/// Whether the character is a start. "the start class 2, then 1"
pub fn start(page: bool, value: u32) -> Result<bool, u32> {
    if !page {
        return Err(2);
    }
    character(value).map(is_basic_text_start)
}

/// Whether the character is an end.
pub fn end(value: u32) -> Result<bool, u32> {
    character(value).map(is_basic_text_end)
}

/// Whether a character is one of those that a queue can hold and a writer refuses: the check asks for another, and the
/// replacement is the same.
pub fn is_excepted(units: bool, value: u32) -> bool {
    let same = replacement(units, value).is_ok_and(|out| out.iter().copied().map(u32::from).eq([value]));
    same && check(units, value).is_ok_and(|reason| reason.is_some_and(|reason| reason.place == 16))
}

/// Why a character is refused by 4.
pub struct Reason {
    /// "the reason as the place in `BasicTextError` counted from 1"
    pub place: u32,
    /// "reasons 2, 3, 13, 16 carry it"
    pub carried: Option<char>,
    /// "16 also its one to three replacements"
    pub replacements: Vec<char>,
}

impl From<&BasicTextError> for Reason {
    fn from(error: &BasicTextError) -> Self {
        let (place, carried) = match error {
            BasicTextError::ColorEscapeSequence => (1, None),
            BasicTextError::ControlCode(c) => (2, Some(*c)),
            BasicTextError::DeprecatedFormatChar(c) => (3, Some(*c)),
            BasicTextError::Escape => (4, None),
            BasicTextError::BidiFormatChar => (5, None),
            BasicTextError::Interlinear => (6, None),
            BasicTextError::LanguageTag => (7, None),
            BasicTextError::LineSeparation => (8, None),
            BasicTextError::NonChar => (9, None),
            BasicTextError::ParaSeparation => (10, None),
            BasicTextError::UnneededBOM => (11, None),
            BasicTextError::OutOfBand => (12, None),
            BasicTextError::Omit(c) => (13, Some(*c)),
            BasicTextError::Beyyal => (14, None),
            BasicTextError::UnrecognizedEscape => (15, None),
            BasicTextError::Replacement { no, .. } => (16, Some(*no)),
        };
        let replacements = match error {
            BasicTextError::Replacement { yes, .. } => yes.to_vec(),
            _ => Vec::new(),
        };
        Self { place, carried, replacements }
    }
}

/// Checks one character. "Entries on one character give 1 .., the check then 4."
pub fn check(units: bool, value: u32) -> Result<Option<Reason>, u32> {
    let check = if units { check_units::check_basic_text_char } else { check_basic_text_char };
    let answer = check(character(value)?);
    Ok(answer.err().map(|error| Reason::from(&error)))
}

/// The longest valid prefix of the bytes.
pub fn valid_prefix(bytes: &[u8]) -> &str {
    let valid = match std::str::from_utf8(bytes) {
        Ok(_) => bytes.len(),
        Err(error) => error.valid_up_to(),
    };
    std::str::from_utf8(&bytes[..valid]).expect("the prefix is valid")
}

/// Isolates a run. "Isolating a run of n characters needs 2 × n + 1 places, an empty one none; order 2, 1, 8."
pub fn isolate(page: bool, room: usize, values: &[u32]) -> Result<Vec<char>, u32> {
    if !page {
        return Err(2);
    }
    let run = characters(values).ok_or(1u32)?;
    let needed = if run.is_empty() { 0 } else { 2 * run.len() + 1 };
    if room < needed {
        return Err(8);
    }
    Ok(run.into_iter().isolate_unassigned().collect())
}
