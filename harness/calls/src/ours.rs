//! The port's scanner and its byte write: the exports of the crate `basic_text` as safe functions. Characters, the numbers
//! of the page and the places of the queue are four bytes each, the low byte first.

/// A record as it crosses. A state over 8 is as 0; a flag is true where it is not 0.
#[repr(C)]
#[derive(Clone, Copy, Debug, PartialEq, Eq)]
pub struct Record {
    pub state: u32,
    pub expect_starter: u32,
    pub at_start: u32,
    pub last: u32,
    pub count: u32,
}

impl Record {
    /// "A fresh record is one as first made".
    pub const FRESH: Self = Self { state: 1, expect_starter: 1, at_start: 1, last: 0x0A, count: 0 };
}

/// The number of the refusal, 0 where the call is accepted; how many characters are written; the record after the call.
#[repr(C)]
#[derive(Clone, Copy, Debug, PartialEq, Eq)]
pub struct Reply {
    pub refused: u32,
    pub written: usize,
    pub record: Record,
}

/// How many characters of an escape a record has places for.
pub const MOST_HELD: usize = 64;

/// A writer's record as it crosses. A mode over 2 and a state over 4 are as 0; a flag is true where it is not 0.
#[repr(C)]
#[derive(Clone, Copy, Debug, PartialEq, Eq)]
pub struct Writer {
    pub mode: u32,
    pub expect_starter: u32,
    pub state: u32,
    pub kept: usize,
    pub held: usize,
    pub escape_sequence: [u32; MOST_HELD],
}

impl Writer {
    /// As opened in a mode: 0 plain, 1 CRLF, 2 color.
    pub const fn fresh(mode: u32) -> Self {
        Self { mode, expect_starter: 1, state: 0, kept: 0, held: 0, escape_sequence: [0; MOST_HELD] }
    }
}

/// The number of the refusal, 0 where the call is accepted; whether the caller is to abandon; of a 4 the reason, the
/// character that it names, how many replacements and which; the bytes used; the characters handed out; the record after.
#[repr(C)]
#[derive(Clone, Copy, Debug, PartialEq, Eq)]
pub struct WriteReply {
    pub refused: u32,
    pub abandon: u32,
    pub reason: u32,
    pub character: u32,
    pub count: u32,
    pub first: u32,
    pub second: u32,
    pub third: u32,
    pub used: usize,
    pub written: usize,
    pub writer: Writer,
}

// A lent slice crosses as its first place and its length; nothing is kept after the call. The functions are proved total:
// they reach only the places that are lent to them. No other slice has those of the queue.
mod linked {
    use super::{Record, Reply, WriteReply, Writer};

    extern "C" {
        pub fn basic_text_scan(
            record: Record,
            page: *const u8,
            page_length: usize,
            options: u32,
            chunk: *const u8,
            chunk_length: usize,
            queue: *mut u8,
            queue_length: usize,
        ) -> Reply;
        pub fn basic_text_finish(record: Record, end_of_file: u32, queue: *mut u8, queue_length: usize) -> Reply;
        pub fn basic_text_write(
            writer: Writer,
            page: *const u8,
            page_length: usize,
            bytes: *const u8,
            bytes_length: usize,
            queue: *mut u8,
            queue_length: usize,
        ) -> WriteReply;
    }
}

/// Options: 1 NEL, 2 LS/PS, 4 units (added). Other bits have no meaning.
pub fn scan(record: Record, page: &[u8], options: u32, chunk: &[u8], queue: &mut [u8]) -> Reply {
    unsafe {
        linked::basic_text_scan(
            record,
            page.as_ptr(),
            page.len(),
            options,
            chunk.as_ptr(),
            chunk.len(),
            queue.as_mut_ptr(),
            queue.len(),
        )
    }
}

pub fn finish(record: Record, end_of_file: u32, queue: &mut [u8]) -> Reply {
    unsafe { linked::basic_text_finish(record, end_of_file, queue.as_mut_ptr(), queue.len()) }
}

/// The queue's first places hold the kept characters.
pub fn write(writer: Writer, page: &[u8], bytes: &[u8], queue: &mut [u8]) -> WriteReply {
    unsafe {
        linked::basic_text_write(
            writer,
            page.as_ptr(),
            page.len(),
            bytes.as_ptr(),
            bytes.len(),
            queue.as_mut_ptr(),
            queue.len(),
        )
    }
}
