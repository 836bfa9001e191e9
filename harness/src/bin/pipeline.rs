//! The Rust pipeline with its adapters removed: bytes from standard input, lossy UTF-8, the original's scanner, its queue
//! to standard output as UTF-8.
//!
//!     pipeline [--nel] [--lsps] [--units]            reads by blocks, and decodes each by `str::from_utf8`
//!     pipeline --whole [--nel] [--lsps] [--units]    reads all, and decodes it by `String::from_utf8_lossy`
//!     pipeline --lines [--nel] [--lsps] [--units]    each line, up to its 0A, is a text of its own, decoded by
//!                                                    `String::from_utf8_lossy`

use harness::properties;
use harness::text_input::scanner::{Options, Scanner};
use std::io::{self, BufRead, BufReader, BufWriter, Read, Write};
use std::process::ExitCode;
use std::str;

/// How many bytes are read at once.
const BLOCK: usize = 65536;

fn main() -> io::Result<ExitCode> {
    let mut options = Options::default();
    let mut clean: fn(Options) -> io::Result<()> = blocks;
    for word in std::env::args().skip(1) {
        match word.as_str() {
            "--nel" => options.nel = true,
            "--lsps" => options.lsps = true,
            "--units" => options.units = true,
            "--whole" => clean = whole,
            "--lines" => clean = lines,
            _ => {
                eprintln!("usage: pipeline [--whole | --lines] [--nel] [--lsps] [--units]");
                return Ok(ExitCode::from(2));
            }
        }
    }
    properties::answer_from(None);
    clean(options)?;
    Ok(ExitCode::SUCCESS)
}

fn blocks(options: Options) -> io::Result<()> {
    let (mut input, mut output) = (io::stdin().lock(), io::stdout().lock());
    let mut scanner = Scanner::default();
    let mut block = vec![0; BLOCK];
    let (mut part, mut out) = (String::new(), String::new());
    // The bytes of a character that is cut off stand first in the block.
    let mut held = 0;
    loop {
        let count = input.read(&mut block[held..])?;
        let end = held + count;
        let used = decode(&block[..end], count == 0, &mut part);
        block.copy_within(used..end, 0);
        held = end - used;
        scanner.feed(options, &mut part, &mut out);
        if count == 0 {
            scanner.end(&mut out);
            return output.write_all(out.as_bytes());
        }
        output.write_all(out.as_bytes())?;
        part.clear();
        out.clear();
    }
}

/// Appends the characters of the bytes, and answers how many bytes they are: a character that the end cuts off is left,
/// unless no more comes.
fn decode(bytes: &[u8], last: bool, part: &mut String) -> usize {
    let mut rest = bytes;
    loop {
        let error = match str::from_utf8(rest) {
            Ok(text) => {
                part.push_str(text);
                return bytes.len();
            }
            Err(error) => error,
        };
        let (valid, after) = rest.split_at(error.valid_up_to());
        part.push_str(str::from_utf8(valid).expect("valid up to here"));
        match error.error_len() {
            None if !last => return bytes.len() - after.len(),
            length => {
                part.push(char::REPLACEMENT_CHARACTER);
                rest = &after[length.unwrap_or(after.len())..];
            }
        }
    }
}

fn whole(options: Options) -> io::Result<()> {
    let mut bytes = Vec::new();
    io::stdin().lock().read_to_end(&mut bytes)?;
    let mut out = String::new();
    text(options, &bytes, &mut out);
    io::stdout().lock().write_all(out.as_bytes())
}

fn lines(options: Options) -> io::Result<()> {
    let mut input = BufReader::with_capacity(BLOCK, io::stdin().lock());
    let mut output = BufWriter::with_capacity(BLOCK, io::stdout().lock());
    let (mut line, mut out) = (Vec::new(), String::new());
    while input.read_until(b'\n', &mut line)? > 0 {
        text(options, &line, &mut out);
        output.write_all(out.as_bytes())?;
        line.clear();
        out.clear();
    }
    output.flush()
}

/// A text by itself, from a fresh scanner, finished as end of file.
fn text(options: Options, bytes: &[u8], out: &mut String) {
    let mut scanner = Scanner::default();
    scanner.feed(options, &mut String::from_utf8_lossy(bytes).into_owned(), out);
    scanner.end(out);
}
