//! Compares the exports of the crate `basic_text` with the oracle after every call, in one process:
//!
//!     calls short|long SEED COUNT
//!
//! COUNT is that of the random calls. Prints how many calls each part compared, and how many were refused by each number, or the
//! first difference. It ends with 1 at a difference, at a part that compared no call, and where a refusal was not met.

#![deny(unsafe_code)]

mod forged;
mod forged_writers;
mod lists;
#[allow(unsafe_code)]
mod ours;
mod sides;
mod stretches;
mod texts;
mod writer_sides;
mod writes;

use sides::{Sides, NUMBERS};
use std::process::ExitCode;
use stretches::Step;
use writer_sides::WriterSides;

/// What is walked: texts of up to so many characters, with pushes of up to so many, and the characters that stand alone;
/// whether every string of three bytes is written; one in so many of the stretches, and so many chunks of thousands.
struct Extent {
    texts: usize,
    pushed: usize,
    alone: Vec<u32>,
    strings: bool,
    step: usize,
    chunks: u64,
}

fn main() -> ExitCode {
    let words: Vec<String> = std::env::args().skip(1).collect();
    let Some((extent, seed, count)) = asked(&words) else {
        eprintln!("usage: calls short|long SEED COUNT");
        return ExitCode::from(2);
    };
    match compare(&extent, seed, count) {
        Ok(()) => ExitCode::SUCCESS,
        Err(difference) => {
            println!("{difference}");
            ExitCode::FAILURE
        }
    }
}

fn asked(words: &[String]) -> Option<(Extent, u64, u64)> {
    let [form, seed, count] = words else {
        return None;
    };
    let extent = match form.as_str() {
        "short" => Extent { texts: 3, pushed: 3, alone: texts::bounds(), strings: false, step: 97, chunks: 10_000 },
        "long" => Extent { texts: 5, pushed: 4, alone: texts::characters(), strings: true, step: 1, chunks: 300_000 },
        _ => return None,
    };
    Some((extent, seed.parse().ok()?, count.parse().ok()?))
}

fn compare(extent: &Extent, seed: u64, count: u64) -> Result<(), String> {
    compare_scanner(&mut Sides::new(), extent, seed, count)?;
    compare_writer(&mut WriterSides::new(), extent, seed, count)
}

fn compare_scanner(sides: &mut Sides, extent: &Extent, seed: u64, count: u64) -> Result<(), String> {
    let mut told = Told::new(&[2, 1, 10, 8]);
    texts::every_text(sides, extent.texts, extent.pushed)?;
    let part = format!("every text of up to {} characters, with pushes {}", extent.texts, extent.pushed);
    told.part(&mut sides.answers, &part)?;
    texts::every_state(sides, &extent.alone)?;
    told.part(&mut sides.answers, &format!("{} characters in every state", extent.alone.len()))?;
    forged::every_record(sides)?;
    told.part(&mut sides.answers, "forged records")?;
    lists::named_pages(sides)?;
    told.part(&mut sides.answers, "pages by name")?;
    lists::random_lists(sides, seed, count)?;
    told.part(&mut sides.answers, "random lists")?;
    stretches::every_place(sides, Step { step: extent.step, seed })?;
    told.part(&mut sides.answers, &of_stretches("stretches, something awkward at every place", extent.step))?;
    stretches::long_chunks(sides, seed, extent.chunks)?;
    told.part(&mut sides.answers, "chunks of thousands")?;
    told.all_met()
}

fn compare_writer(sides: &mut WriterSides, extent: &Extent, seed: u64, count: u64) -> Result<(), String> {
    let mut told = Told::new(&[9, 2, 3, 8, 4, 6, 5]);
    writes::every_string(sides, extent.strings)?;
    let longest = if extent.strings { 3 } else { 2 };
    let part = format!("writes, every string of up to {longest} bytes, and the bounds of UTF-8");
    told.part(&mut sides.answers, &part)?;
    writes::every_state(sides, &extent.alone)?;
    told.part(&mut sides.answers, &format!("writes, {} characters in every state", extent.alone.len()))?;
    forged_writers::every_record(sides)?;
    told.part(&mut sides.answers, "writes, forged records")?;
    writes::named_pages(sides)?;
    told.part(&mut sides.answers, "writes, pages by name")?;
    writes::random_lists(sides, seed, count)?;
    told.part(&mut sides.answers, "writes, random lists")?;
    stretches::every_place_written(sides, Step { step: extent.step, seed })?;
    told.part(&mut sides.answers, &of_stretches("writes, stretches, something awkward at every place", extent.step))?;
    stretches::long_chunks_written(sides, seed, extent.chunks)?;
    told.part(&mut sides.answers, "writes, chunks of thousands")?;
    told.all_met()
}

fn of_stretches(part: &str, step: usize) -> String {
    if step == 1 {
        part.to_owned()
    } else {
        format!("{part}, one in {step}")
    }
}

/// What was told of the parts so far.
struct Told {
    /// The refusals that the parts together must meet, in the order of their tests.
    refusals: &'static [usize],
    met: [u64; NUMBERS],
}

impl Told {
    fn new(refusals: &'static [usize]) -> Self {
        Self { refusals, met: [0; NUMBERS] }
    }

    /// Says what a part compared, and begins the count anew. A part that compared no call is a failure.
    fn part(&mut self, answers: &mut [u64; NUMBERS], part: &str) -> Result<(), String> {
        let answers = std::mem::replace(answers, [0; NUMBERS]);
        let calls: u64 = answers.iter().sum();
        if calls == 0 {
            return Err(format!("NOTHING COMPARED: {part}"));
        }
        let refused: Vec<String> =
            self.refusals.iter().map(|number| format!("{number}: {}", answers[*number])).collect();
        println!("{part}: {calls} calls compared, refused by {}", refused.join(", "));
        for (met, count) in self.met.iter_mut().zip(answers) {
            *met += count;
        }
        Ok(())
    }

    /// A refusal that no part met is a failure.
    fn all_met(&self) -> Result<(), String> {
        match self.refusals.iter().find(|number| self.met[**number] == 0) {
            Some(number) => Err(format!("NOTHING COMPARED: no call is refused by {number}")),
            None => Ok(()),
        }
    }
}
