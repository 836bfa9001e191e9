//! The leaves, the scanner, the writer and the generator of awkward text, each with its two sides.

use crate::exports::{self, Record};
use crate::{ours, rust};
use harness::generator;
use harness::text_input::scanner::{Options, Scanner};
use harness::text_output::writer::{Counter, Sink, Timed};
use std::collections::VecDeque;

/// Some characters in the forms that the sides take.
pub struct Chunk {
    chars: Vec<char>,
    numbers: Vec<u32>,
    /// The numbers as bytes, as the exports take them.
    lent: Vec<u8>,
    text: String,
    /// As UTF-16, little-endian and big-endian.
    little: Vec<u8>,
    big: Vec<u8>,
}

impl Chunk {
    pub fn new(chars: &[char]) -> Self {
        let numbers: Vec<u32> = chars.iter().map(|c| u32::from(*c)).collect();
        let text: String = chars.iter().collect();
        let units = |bytes: fn(u16) -> [u8; 2]| text.encode_utf16().flat_map(bytes).collect();
        let (little, big) = (units(u16::to_le_bytes), units(u16::to_be_bytes));
        Self { chars: chars.to_vec(), lent: bytes(&numbers), numbers, text, little, big }
    }
}

/// Four bytes for each number, the low one first.
fn bytes(numbers: &[u32]) -> Vec<u8> {
    numbers.iter().flat_map(|number| number.to_le_bytes()).collect()
}

/// The page, and what the sides write to.
pub struct Lent {
    pub page: Vec<u32>,
    page_bytes: Vec<u8>,
    ours: Vec<u32>,
    our_bytes: Vec<u8>,
    rust: Vec<u32>,
    rust_bytes: Vec<u8>,
    scanner: Scanner,
    queue: VecDeque<char>,
    plain: Timed<Counter>,
    crlf: Timed<Counter>,
}

impl Lent {
    /// Places for chunks of at most so many characters.
    pub fn new(page: Vec<u32>, most: usize) -> Self {
        let places = 3 * most + 1;
        Self {
            page_bytes: bytes(&page),
            page,
            ours: vec![0; places],
            our_bytes: vec![0; 4 * places],
            rust: vec![0; places],
            rust_bytes: vec![0; 4 * most],
            scanner: Scanner::default(),
            queue: VecDeque::new(),
            plain: Timed::open(false),
            crlf: Timed::open(true),
        }
    }
}

/// One side of a leaf: the sum over a chunk, or how many characters it wrote; of the generator the state.
pub type Side = fn(&mut Lent, &mut Chunk) -> usize;

pub struct Leaf {
    pub name: &'static str,
    pub ours: Side,
    pub rust: Side,
    /// Whether both sides wrote the same so many characters.
    same: fn(&mut Lent, &Chunk, usize) -> bool,
}

impl Leaf {
    /// Ends the program where the two sides of a call differ.
    pub fn agree(&self, lent: &mut Lent, chunk: &mut Chunk) {
        let (ours, rust) = ((self.ours)(lent, chunk), (self.rust)(lent, chunk));
        let shown = || chunk.chars.iter().take(4096).flat_map(|c| c.escape_unicode()).collect::<String>();
        assert!(ours == rust && (self.same)(lent, chunk, ours), "{} of {}", self.name, shown());
    }
}

/// The leaves on characters and bytes.
pub const LEAVES: [Leaf; 7] = [
    Leaf {
        name: "is_basic_text_end",
        ours: |_, chunk| ours::end(&chunk.numbers) as usize,
        rust: |_, chunk| rust::end(&chunk.chars) as usize,
        same: nothing,
    },
    Leaf {
        name: "is_basic_text_start",
        ours: |lent, chunk| ours::start(&lent.page, &chunk.numbers) as usize,
        rust: |_, chunk| rust::start(&chunk.chars) as usize,
        same: nothing,
    },
    Leaf {
        name: "replace",
        ours: |_, chunk| ours::replace(&chunk.numbers) as usize,
        rust: |lent, chunk| rust::replace(&chunk.chars, &mut lent.queue) as usize,
        same: nothing,
    },
    Leaf {
        name: "check_basic_text_char",
        ours: |_, chunk| ours::check(&chunk.numbers) as usize,
        rust: |_, chunk| rust::check(&chunk.chars) as usize,
        same: nothing,
    },
    ISOLATE,
    Leaf {
        name: "valid_prefix",
        ours: |_, chunk| ours::prefix(chunk.text.as_bytes()),
        rust: |_, chunk| rust::prefix(chunk.text.as_bytes()),
        same: nothing,
    },
    DECODE,
];

/// The check of a run.
pub const CHECK_RUN: Leaf = Leaf {
    name: "check_run",
    ours: |lent, chunk| ours::check_run(&lent.page, &chunk.numbers),
    rust: |_, chunk| rust::check_run(&chunk.chars),
    same: nothing,
};

pub const ISOLATE: Leaf = Leaf {
    name: "isolate",
    ours: |lent, chunk| ours::isolate(&lent.page, &chunk.numbers, &mut lent.ours),
    rust: |lent, chunk| rust::isolate(&chunk.chars, &mut lent.rust),
    same: |lent, _, count| lent.ours[..count] == lent.rust[..count],
};

pub const DECODE: Leaf = Leaf {
    name: "decode_utf8",
    ours: |lent, chunk| ours::decode(chunk.text.as_bytes(), &mut lent.ours),
    rust: |lent, chunk| rust::decode(chunk.text.as_bytes(), &mut lent.rust),
    same: |lent, _, count| lent.ours[..count] == lent.rust[..count],
};

/// UTF-16, read and written, in both orders.
pub const UTF16: [Leaf; 4] = [
    Leaf {
        name: "decode_utf16 le",
        ours: |lent, chunk| ours::decode_utf16(false, &chunk.little, &mut lent.ours),
        rust: |lent, chunk| rust::decode_utf16(false, &chunk.little, &mut lent.rust),
        same: DECODE.same,
    },
    Leaf {
        name: "decode_utf16 be",
        ours: |lent, chunk| ours::decode_utf16(true, &chunk.big, &mut lent.ours),
        rust: |lent, chunk| rust::decode_utf16(true, &chunk.big, &mut lent.rust),
        same: DECODE.same,
    },
    Leaf {
        name: "encode_utf16 le",
        ours: |lent, chunk| ours::encode_utf16(false, &chunk.numbers, &mut lent.our_bytes),
        rust: |lent, chunk| rust::encode_utf16(false, &chunk.text, &mut lent.rust_bytes),
        same: same_bytes,
    },
    Leaf {
        name: "encode_utf16 be",
        ours: |lent, chunk| ours::encode_utf16(true, &chunk.numbers, &mut lent.our_bytes),
        rust: |lent, chunk| rust::encode_utf16(true, &chunk.text, &mut lent.rust_bytes),
        same: same_bytes,
    },
];

fn same_bytes(lent: &mut Lent, _: &Chunk, count: usize) -> bool {
    lent.our_bytes[..count] == lent.rust_bytes[..count]
}

/// The scanner, from a record as after one character, without options.
pub const SCAN: Leaf = Leaf {
    name: "scan",
    ours: |lent, chunk| ours::scan(&lent.page, false, &chunk.numbers, &mut lent.ours),
    rust: |lent, chunk| lent.scanner.clean(Options::default(), &mut chunk.text),
    same: |lent, _, count| lent.scanner.tail(count).map(u32::from).eq(lent.ours[..count].iter().copied()),
};

/// The same with A.5's option.
pub const SCAN_UNITS: Leaf = Leaf {
    name: "scan, units",
    ours: |lent, chunk| ours::scan(&lent.page, true, &chunk.numbers, &mut lent.ours),
    rust: |lent, chunk| lent.scanner.clean(Options { units: true, ..Options::default() }, &mut chunk.text),
    same: SCAN.same,
};

/// Asking how many places a chunk fills, and committing it, from the same record. The Rust has its one call for both.
pub const PRICE: [Leaf; 2] = [
    Leaf { name: "ask", ours: |lent, chunk| ours::ask(&lent.page, &chunk.numbers), rust: SCAN.rust, same: nothing },
    Leaf {
        name: "commit",
        ours: |lent, chunk| ours::commit(&lent.page, &chunk.numbers, &mut lent.ours),
        rust: SCAN.rust,
        same: SCAN.same,
    },
];

/// The scan by the export of the crate `basic_text`, on bytes.
pub const EXPORTED_SCAN: Leaf = Leaf {
    name: "exported scan",
    ours: |lent, chunk| {
        let record = Record { state: 0, expect_starter: 0, at_start: 0, last: 0x61, count: 1 };
        exports::scan(record, &lent.page_bytes, 0, &chunk.lent, &mut lent.our_bytes).written
    },
    rust: SCAN.rust,
    same: |lent, _, count| {
        let ours = lent.our_bytes[..4 * count].iter().copied();
        lent.scanner.tail(count).flat_map(|c| u32::from(c).to_le_bytes()).eq(ours)
    },
};

/// The writer, which expects no start: of characters, plain and CRLF, and of bytes. A side says whether the write succeeds.
pub const WRITES: [Leaf; 3] = [
    Leaf {
        name: "write_str",
        ours: |lent, chunk| usize::from(ours::write_str(&lent.page, false, &chunk.numbers, &mut lent.ours) > 0),
        rust: |lent, chunk| usize::from(lent.plain.write_str(&chunk.text)),
        same: |lent, chunk, _| {
            let count = ours::write_str(&lent.page, false, &chunk.numbers, &mut lent.ours);
            handed_out(false, |rust| rust.write_str(&chunk.text), &lent.ours[..count])
        },
    },
    Leaf {
        name: "write_str crlf",
        ours: |lent, chunk| usize::from(ours::write_str(&lent.page, true, &chunk.numbers, &mut lent.ours) > 0),
        rust: |lent, chunk| usize::from(lent.crlf.write_str(&chunk.text)),
        same: |lent, chunk, _| {
            let count = ours::write_str(&lent.page, true, &chunk.numbers, &mut lent.ours);
            handed_out(true, |rust| rust.write_str(&chunk.text), &lent.ours[..count])
        },
    },
    Leaf {
        name: "write",
        ours: |lent, chunk| usize::from(ours::write(&lent.page, chunk.text.as_bytes(), &mut lent.ours) > 0),
        rust: |lent, chunk| usize::from(lent.plain.write(chunk.text.as_bytes())),
        same: |lent, chunk, _| {
            let count = ours::write(&lent.page, chunk.text.as_bytes(), &mut lent.ours);
            handed_out(false, |rust| rust.write(chunk.text.as_bytes()), &lent.ours[..count])
        },
    },
];

/// Whether the Rust's write hands out what ours did: nothing where it is refused.
fn handed_out(crlf: bool, write: impl FnOnce(&mut Timed<Sink>) -> bool, ours: &[u32]) -> bool {
    let mut rust = Timed::open(crlf);
    write(&mut rust);
    rust.handed_out().into_iter().map(u32::from).eq(ours.iter().copied())
}

/// The generator: as many places as the chunk has characters, filled from the number of its first one. A side says the state that it
/// hands back.
pub const FILL: Leaf = Leaf {
    name: "fill",
    ours: |lent, chunk| ours::fill(chunk.numbers[0], &mut lent.ours[..chunk.numbers.len()]) as usize,
    rust: |lent, chunk| generator::fill(chunk.numbers[0], &mut lent.rust[..chunk.numbers.len()]) as usize,
    same: |lent, chunk, _| lent.ours[..chunk.numbers.len()] == lent.rust[..chunk.numbers.len()],
};

/// The leaf on the page: it takes no characters.
pub const PAGE: Leaf = Leaf {
    name: "is_accepted",
    ours: |lent, _| usize::from(ours::page(&lent.page)),
    rust: |lent, _| usize::from(rust::page(&lent.page)),
    same: nothing,
};

/// Of a leaf that writes nothing the sums are all.
fn nothing(_: &mut Lent, _: &Chunk, _: usize) -> bool {
    true
}
