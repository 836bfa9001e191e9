//! How the time of one call grows with its characters.

use crate::clock::{least, Times};
use crate::grouped;
use crate::inputs::{keeping, writable, Input, GROWING};
use crate::leaves::{Chunk, Leaf, Lent, CHECK_RUN, DECODE, ISOLATE, SCAN};

/// So many characters, all in one call.
pub const SIZES: [usize; 5] = [1_000, 10_000, 100_000, 1_000_000, MOST];

/// The most of them.
pub const MOST: usize = 10_000_000;

/// Pieces of one size are so many characters together, or more.
const PIECES: usize = 100_000;

/// The leaves that are followed.
pub const FOLLOWED: [Leaf; 3] = [SCAN, ISOLATE, DECODE];

/// A leaf on an input: the ns of one call at each of the sizes.
pub struct Line {
    pub leaf: &'static str,
    pub input: &'static str,
    pub times: Vec<Times>,
}

/// A line for each input and leaf.
pub fn lines(lent: &mut Lent) -> Vec<Line> {
    let mut lines = Vec::new();
    for input in GROWING {
        let text = (input.text)(MOST);
        for leaf in &FOLLOWED {
            let times = SIZES.iter().map(|size| one_call(leaf, lent, &text, *size)).collect();
            lines.push(Line { leaf: leaf.name, input: input.name, times });
        }
    }
    lines
}

/// A line for each input of the check of a run, on runs that get yes. They are printed, and not drawn.
pub fn check_lines(lent: &mut Lent) -> Vec<Line> {
    let line = |input: &&Input| {
        // More than half of each input is left.
        let text = writable((input.text)(2 * MOST));
        let runs = |size: usize| keeping(text[..size.max(PIECES)].to_vec(), size);
        let times = SIZES.iter().map(|size| one_call(&CHECK_RUN, lent, &runs(*size), *size)).collect();
        Line { leaf: CHECK_RUN.name, input: input.name, times }
    };
    GROWING.iter().map(line).collect()
}

/// The mean over calls on some pieces of a size, where it is small.
fn one_call(leaf: &Leaf, lent: &mut Lent, text: &[char], size: usize) -> Times {
    let length = size.max(PIECES);
    let mut groups: Vec<Vec<Chunk>> = text[..length].chunks(size).map(|piece| vec![Chunk::new(piece)]).collect();
    groups.iter_mut().flatten().for_each(|chunk| leaf.agree(lent, chunk));
    least(leaf, lent, &mut groups).map(|ns| ns / groups.len() as f64)
}

pub fn print(lines: &[Line]) {
    println!("\n{:36} {:^27} {:^24}", "the time of one call", "ns per call", "ns per character");
    println!("{:36} {:>13} {:>13} {:>8} {:>8} {:>6}", "", "ours", "Rust", "ours", "Rust", "ratio");
    for line in lines {
        for (size, [ours, rust]) in SIZES.iter().zip(&line.times) {
            let [each, rust_each] = [ours, rust].map(|ns| ns / *size as f64);
            println!(
                "{:11} {:10} {:>13} {:>13} {:>13} {each:8.3} {rust_each:8.3} {:6.2}",
                line.leaf,
                line.input,
                grouped(*size),
                grouped(*ours as usize),
                grouped(*rust as usize),
                ours / rust
            );
        }
    }
}
