//! A script whose lines the oracle answers as they are made, so that what a later line needs is known.

use super::operation;
use crate::replay::Oracle;
use crate::words::numbered;

pub struct Talk {
    oracle: Oracle,
    pub lines: Vec<String>,
}

impl Talk {
    pub fn new() -> Self {
        Self { oracle: Oracle::new(false), lines: Vec::new() }
    }

    /// One line more, and the answer to it.
    pub fn say(&mut self, line: String) -> String {
        let answer = self.oracle.answer(&line).unwrap_or_default();
        self.lines.push(line);
        answer
    }

    /// How many places a chunk fills, which the oracle alone is asked; none if asking is refused.
    pub fn places(&mut self, options: u32, chunk: &[u32]) -> Option<usize> {
        numbered(&self.oracle.answer(&ask(options, chunk))?)
    }
}

pub fn ask(options: u32, chunk: &[u32]) -> String {
    operation("S ask", std::iter::once(options).chain(chunk.iter().copied()))
}

pub fn commit(options: u32, room: usize, chunk: &[u32]) -> String {
    operation("S commit", [options, room as u32].into_iter().chain(chunk.iter().copied()))
}
