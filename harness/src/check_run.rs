//! The check of a run, document 02, A.1: every fault of it by the original's own check, start and end, and the least of them.

use crate::unicode::ESC;
use crate::words::characters;
use crate::{check_basic_text_char, is_basic_text_end, is_basic_text_start};
use std::fmt;

/// What is wrong at a place. "At one place a refused character or ESC (one kind) comes first, then a start, an end and a newline fault."
#[derive(Clone, Copy, PartialEq, Eq, PartialOrd, Ord)]
pub enum Kind {
    Char,
    Start,
    End,
    Newline,
}

impl fmt::Display for Kind {
    fn fmt(&self, f: &mut fmt::Formatter<'_>) -> fmt::Result {
        f.write_str(match self {
            Kind::Char => "char",
            Kind::Start => "start",
            Kind::End => "end",
            Kind::Newline => "newline",
        })
    }
}

/// A fault: its place, from 0, and its kind. One is less than another if it comes before it in reading order.
pub type Fault = (usize, Kind);

/// The first fault of a run, or none. "Answers: pages and values are tested as for a scan, 2 then 1."
pub fn check_run(page: bool, values: &[u32]) -> Result<Option<Fault>, u32> {
    if !page {
        return Err(2);
    }
    let run = characters(values).ok_or(1u32)?;
    Ok(faults(&run).into_iter().min())
}

/// "all accepted and none ESC, first a start, last an end, and a newline last unless empty": the faults, rule by rule. "End and
/// newline faults are placed at the last character."
fn faults(run: &[char]) -> Vec<Fault> {
    let refused = |c: &char| check_basic_text_char(*c).is_err() || *c == ESC;
    let mut faults: Vec<Fault> =
        run.iter().enumerate().filter(|(_, c)| refused(c)).map(|(place, _)| (place, Kind::Char)).collect();
    if run.first().is_some_and(|c| !is_basic_text_start(*c)) {
        faults.push((0, Kind::Start));
    }
    if let Some(last) = run.last() {
        let place = run.len() - 1;
        if !is_basic_text_end(*last) {
            faults.push((place, Kind::End));
        }
        if *last != '\n' {
            faults.push((place, Kind::Newline));
        }
    }
    faults
}
