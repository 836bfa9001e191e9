//! Writes a script of the replay protocol: `generate KIND SEED COUNT`. Equal words give equal scripts.

use harness::scripts::{script, Lines, KINDS};
use std::io::{self, BufWriter, Write};
use std::process::ExitCode;

fn main() -> io::Result<ExitCode> {
    let words: Vec<String> = std::env::args().skip(1).collect();
    let Some(lines) = asked(&words) else {
        let kinds: Vec<&str> = KINDS.iter().map(|(kind, ..)| *kind).collect();
        eprintln!("usage: generate KIND SEED COUNT, KIND one of: {}", kinds.join(" "));
        return Ok(ExitCode::from(2));
    };
    let mut output = BufWriter::new(io::stdout().lock());
    for line in lines {
        writeln!(output, "{line}")?;
    }
    output.flush()?;
    Ok(ExitCode::SUCCESS)
}

fn asked(words: &[String]) -> Option<Lines> {
    let [kind, seed, count] = words else {
        return None;
    };
    script(kind, seed.parse().ok()?, count.parse().ok()?)
}
