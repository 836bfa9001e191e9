//! The oracle: the original's answers.
//!
//!     oracle          reads operations of the replay protocol, writes their answers
//!     oracle crate    the same, with Debian's crate in the place of every accepted page
//!     oracle page     writes the real page as an operation

use harness::replay::Oracle;
use harness::scripts::real_page_line;
use std::io::{self, BufRead, BufWriter, Write};
use std::process::ExitCode;

fn main() -> io::Result<ExitCode> {
    let words: Vec<String> = std::env::args().skip(1).collect();
    match words.iter().map(String::as_str).collect::<Vec<_>>().as_slice() {
        [] => replay(Oracle::new(false))?,
        ["crate"] => replay(Oracle::new(true))?,
        ["page"] => println!("{}", real_page_line()),
        _ => {
            eprintln!("usage: oracle [crate | page]");
            return Ok(ExitCode::from(2));
        }
    }
    Ok(ExitCode::SUCCESS)
}

fn replay(mut oracle: Oracle) -> io::Result<()> {
    let mut input = io::stdin().lock();
    let mut output = BufWriter::new(io::stdout().lock());
    let mut line = Vec::new();
    while input.read_until(b'\n', &mut line)? > 0 {
        let end = line.strip_suffix(b"\n").unwrap_or(&line);
        if let Some(answer) = oracle.answer(&String::from_utf8_lossy(end)) {
            writeln!(output, "{answer}")?;
        }
        line.clear();
    }
    output.flush()
}
