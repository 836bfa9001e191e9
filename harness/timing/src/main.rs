//! Times each leaf, the scanner, the writer and the generator of the port beside the Rust's, in one run:
//!
//!     timing CHART
//!
//! prints the tables, and writes how the time grows as a drawing to the file CHART. First both sides must agree on every
//! character, and on every chunk before it is timed.

#![deny(unsafe_code)]

mod chart;
mod clock;
// The exports of the crate `basic_text`, of which the benchmark takes the scan.
#[allow(dead_code, unsafe_code)]
#[path = "../../calls/src/ours.rs"]
mod exports;
mod growth;
mod inputs;
mod leaves;
#[allow(unsafe_code)]
mod ours;
mod rust;

use clock::{least, Times};
use inputs::{keeping, writable, GROWING, INPUTS};
use leaves::{
    Chunk, Leaf, Lent, CHECK_RUN, EXPORTED_SCAN, FILL, ISOLATE, LEAVES, PAGE, PRICE, SCAN, SCAN_UNITS, UTF16, WRITES,
};
use std::process::ExitCode;

/// So many characters are timed at once, as one chunk or as several.
const CHUNK: usize = 4096;

/// Of an input so many chunks of that size are timed.
const CHUNKS: usize = 16;

/// The sizes of small chunks.
const SMALL: [usize; 2] = [64, 16];

/// So many calls on nearly nothing are timed at once.
const CALLS: usize = 100;

fn main() -> ExitCode {
    let words: Vec<String> = std::env::args().skip(1).collect();
    let [chart] = words.as_slice() else {
        eprintln!("usage: timing CHART");
        return ExitCode::from(2);
    };
    // The Rust asks Debian's crate; the port asks the page that is made from it.
    harness::properties::answer_from(None);
    let mut lent = Lent::new(harness::page::real_numbers(), growth::MOST);

    println!("both sides agree on {} characters", every_character(&mut lent));
    of_characters(&mut lent);
    of_calls(&mut lent);
    let lines = growth::lines(&mut lent);
    growth::print(&lines);
    growth::print(&growth::check_lines(&mut lent));
    if let Err(error) = std::fs::write(chart, chart::drawn(&lines)) {
        eprintln!("timing: {chart}: {error}");
        return ExitCode::FAILURE;
    }
    ExitCode::SUCCESS
}

/// Ends the program at the first character on which the sides differ. How many characters there are.
fn every_character(lent: &mut Lent) -> usize {
    let mut count = 0;
    for c in '\0'..=char::MAX {
        let chunk = &mut Chunk::new(&[c]);
        let others = [&CHECK_RUN, &SCAN, &SCAN_UNITS, &EXPORTED_SCAN, &FILL];
        for leaf in LEAVES.iter().chain(&UTF16).chain(&PRICE).chain(others).chain(&WRITES) {
            leaf.agree(lent, chunk);
        }
        count += 1;
    }
    count
}

/// ns per character.
fn of_characters(lent: &mut Lent) {
    heading(&format!("ns per character, chunks of {}", grouped(CHUNK)));
    for leaf in LEAVES.iter().chain(&UTF16).chain([&SCAN, &SCAN_UNITS, &EXPORTED_SCAN]).chain(&PRICE) {
        for input in &INPUTS {
            let text = (input.text)(CHUNK * CHUNKS);
            row(leaf.name, input.name, per_character(leaf, lent, &text, CHUNK));
        }
    }
    for leaf in &WRITES {
        for input in &INPUTS {
            let text = writable((input.text)(CHUNK * CHUNKS));
            row(leaf.name, input.name.trim_end_matches(" CRLF"), per_character(leaf, lent, &text, CHUNK));
        }
    }
    for input in &INPUTS {
        let text = keeping((input.text)(CHUNK * CHUNKS), CHUNK);
        row(CHECK_RUN.name, input.name.trim_end_matches(" CRLF"), per_character(&CHECK_RUN, lent, &text, CHUNK));
    }
    // It reads no text: one row for all inputs.
    let [_, awkward] = GROWING;
    row(FILL.name, awkward.name, per_character(&FILL, lent, &(awkward.text)(CHUNK * CHUNKS), CHUNK));
    for size in SMALL {
        heading(&format!("ns per character, chunks of {size}"));
        for input in &INPUTS {
            let text = (input.text)(CHUNK * CHUNKS);
            row(SCAN.name, input.name, per_character(&SCAN, lent, &text, size));
        }
    }
}

/// ns for one character of a text that is cut into chunks of a size.
fn per_character(leaf: &Leaf, lent: &mut Lent, text: &[char], size: usize) -> Times {
    let cut = |part: &[char]| part.chunks(size).map(Chunk::new).collect();
    let mut groups: Vec<Vec<Chunk>> = text.chunks(CHUNK).map(cut).collect();
    groups.iter_mut().flatten().for_each(|chunk| leaf.agree(lent, chunk));
    least(leaf, lent, &mut groups).map(|ns| ns / text.len() as f64)
}

/// ns per call: what a call costs beside its characters.
fn of_calls(lent: &mut Lent) {
    heading("ns per call");
    for (name, text) in [("empty chunk", &[][..]), ("one character", &['a'])] {
        for leaf in [&SCAN, &EXPORTED_SCAN, &PRICE[0], &PRICE[1], &ISOLATE, &CHECK_RUN] {
            row(leaf.name, name, per_call(leaf, lent, text));
        }
    }
    row(PAGE.name, "real page", per_call(&PAGE, lent, &[]));
}

fn per_call(leaf: &Leaf, lent: &mut Lent, text: &[char]) -> Times {
    let mut chunks: Vec<Chunk> = (0..CALLS).map(|_| Chunk::new(text)).collect();
    chunks.iter_mut().for_each(|chunk| leaf.agree(lent, chunk));
    least(leaf, lent, &mut [chunks]).map(|ns| ns / CALLS as f64)
}

fn heading(unit: &str) {
    println!("\n{unit:36} {:>8} {:>8} {:>6}", "ours", "Rust", "ratio");
}

fn row(name: &str, input: &str, [ours, rust]: Times) {
    println!("{name:22} {input:13} {ours:8.3} {rust:8.3} {:6.2}", ours / rust);
}

/// A number with commas between its thousands.
fn grouped(number: usize) -> String {
    let digits = number.to_string();
    let threes: Vec<&str> =
        digits.as_bytes().rchunks(3).rev().filter_map(|three| std::str::from_utf8(three).ok()).collect();
    threes.join(",")
}
