//! The port's functions: the exports of the crate `bench` as safe functions.

// A lent slice crosses as its first place and its length; nothing is kept after the call. Each function is proved total:
// it reads only the places that are lent to it.
mod linked {
    extern "C" {
        /// How many of the characters are ends.
        pub fn bench_end(chars: *const u32, count: usize) -> u32;
        /// How many of the characters are starts by the page; 0 where the page is not accepted.
        pub fn bench_start(page: *const u32, size: usize, chars: *const u32, count: usize) -> u32;
        /// The sum of all that replaces the characters.
        pub fn bench_replace(chars: *const u32, count: usize) -> u32;
        /// How many of the characters the check accepts.
        pub fn bench_check(chars: *const u32, count: usize) -> u32;
        /// Four times the place of the run's first fault with its kind's number added, 1 to 4; 0 for none, the greatest number for a
        /// refusal.
        pub fn bench_check_run(page: *const u32, size: usize, chars: *const u32, count: usize) -> usize;
        /// Writes the isolated run to the places from `out` on, which nothing else has: how many, or 0 for a refusal.
        pub fn bench_isolate(
            page: *const u32,
            size: usize,
            chars: *const u32,
            count: usize,
            out: *mut u32,
            room: usize,
        ) -> usize;
        /// Writes what the scanner appends for the chunk, from a record as after one character, to the places from `queue`
        /// on, which nothing else has: how many, or 0 for a refusal.
        pub fn bench_scan(
            page: *const u32,
            size: usize,
            nel: bool,
            lsps: bool,
            units: bool,
            chunk: *const u32,
            count: usize,
            queue: *mut u32,
            room: usize,
        ) -> usize;
        /// The same by a commit.
        pub fn bench_commit(
            page: *const u32,
            size: usize,
            nel: bool,
            lsps: bool,
            units: bool,
            chunk: *const u32,
            count: usize,
            queue: *mut u32,
            room: usize,
        ) -> usize;
        /// How many places the chunk fills from the same record, or 0 for a refusal.
        pub fn bench_ask(
            page: *const u32,
            size: usize,
            nel: bool,
            lsps: bool,
            units: bool,
            chunk: *const u32,
            count: usize,
        ) -> usize;
        /// Writes what a plain or a CRLF writer that expects no start hands out for the characters to the places from `out`
        /// on, which nothing else has: how many, or 0 for a refusal.
        pub fn bench_write(
            page: *const u32,
            size: usize,
            crlf: bool,
            chars: *const u32,
            count: usize,
            out: *mut u32,
            room: usize,
        ) -> usize;
        /// The same for bytes, by a plain writer.
        pub fn bench_write_bytes(
            page: *const u32,
            size: usize,
            bytes: *const u8,
            count: usize,
            out: *mut u32,
            room: usize,
        ) -> usize;
        /// Whether the page is accepted.
        pub fn bench_page(page: *const u32, size: usize) -> bool;
        /// How many bytes the longest valid prefix has.
        pub fn bench_prefix(bytes: *const u8, count: usize) -> usize;
        /// Writes the characters of that prefix to the places from `out` on, which nothing else has: how many.
        pub fn bench_decode(bytes: *const u8, count: usize, out: *mut u32, room: usize) -> usize;
        /// Writes the characters of UTF-16, big-endian or little-endian, to the places from `out` on, which nothing else has: how
        /// many, or 0 for a refusal.
        pub fn bench_decode_utf16(big: bool, bytes: *const u8, count: usize, out: *mut u32, room: usize) -> usize;
        /// Writes characters as UTF-16 to the bytes from `out` on, which nothing else has: how many, or 0 for a refusal.
        pub fn bench_encode_utf16(big: bool, chars: *const u32, count: usize, out: *mut u8, room: usize) -> usize;
        /// Fills the places from `out` on, which nothing else has, by the generator of awkward text: the state that it hands back.
        pub fn bench_fill(state: u32, out: *mut u32, count: usize) -> u32;
    }
}

pub fn end(chars: &[u32]) -> u32 {
    unsafe { linked::bench_end(chars.as_ptr(), chars.len()) }
}

pub fn start(page: &[u32], chars: &[u32]) -> u32 {
    unsafe { linked::bench_start(page.as_ptr(), page.len(), chars.as_ptr(), chars.len()) }
}

pub fn replace(chars: &[u32]) -> u32 {
    unsafe { linked::bench_replace(chars.as_ptr(), chars.len()) }
}

pub fn check(chars: &[u32]) -> u32 {
    unsafe { linked::bench_check(chars.as_ptr(), chars.len()) }
}

pub fn check_run(page: &[u32], chars: &[u32]) -> usize {
    unsafe { linked::bench_check_run(page.as_ptr(), page.len(), chars.as_ptr(), chars.len()) }
}

pub fn isolate(page: &[u32], chars: &[u32], out: &mut [u32]) -> usize {
    unsafe {
        linked::bench_isolate(page.as_ptr(), page.len(), chars.as_ptr(), chars.len(), out.as_mut_ptr(), out.len())
    }
}

/// Without options but A.5's.
pub fn scan(page: &[u32], units: bool, chunk: &[u32], queue: &mut [u32]) -> usize {
    unsafe {
        linked::bench_scan(
            page.as_ptr(),
            page.len(),
            false,
            false,
            units,
            chunk.as_ptr(),
            chunk.len(),
            queue.as_mut_ptr(),
            queue.len(),
        )
    }
}

/// Without options.
pub fn commit(page: &[u32], chunk: &[u32], queue: &mut [u32]) -> usize {
    unsafe {
        linked::bench_commit(
            page.as_ptr(),
            page.len(),
            false,
            false,
            false,
            chunk.as_ptr(),
            chunk.len(),
            queue.as_mut_ptr(),
            queue.len(),
        )
    }
}

/// Without options.
pub fn ask(page: &[u32], chunk: &[u32]) -> usize {
    unsafe { linked::bench_ask(page.as_ptr(), page.len(), false, false, false, chunk.as_ptr(), chunk.len()) }
}

pub fn write_str(page: &[u32], crlf: bool, chars: &[u32], out: &mut [u32]) -> usize {
    unsafe {
        linked::bench_write(page.as_ptr(), page.len(), crlf, chars.as_ptr(), chars.len(), out.as_mut_ptr(), out.len())
    }
}

pub fn write(page: &[u32], bytes: &[u8], out: &mut [u32]) -> usize {
    unsafe {
        linked::bench_write_bytes(page.as_ptr(), page.len(), bytes.as_ptr(), bytes.len(), out.as_mut_ptr(), out.len())
    }
}

pub fn page(page: &[u32]) -> bool {
    unsafe { linked::bench_page(page.as_ptr(), page.len()) }
}

pub fn prefix(bytes: &[u8]) -> usize {
    unsafe { linked::bench_prefix(bytes.as_ptr(), bytes.len()) }
}

pub fn decode(bytes: &[u8], out: &mut [u32]) -> usize {
    unsafe { linked::bench_decode(bytes.as_ptr(), bytes.len(), out.as_mut_ptr(), out.len()) }
}

pub fn decode_utf16(big: bool, bytes: &[u8], out: &mut [u32]) -> usize {
    unsafe { linked::bench_decode_utf16(big, bytes.as_ptr(), bytes.len(), out.as_mut_ptr(), out.len()) }
}

pub fn encode_utf16(big: bool, chars: &[u32], out: &mut [u8]) -> usize {
    unsafe { linked::bench_encode_utf16(big, chars.as_ptr(), chars.len(), out.as_mut_ptr(), out.len()) }
}

pub fn fill(state: u32, out: &mut [u32]) -> u32 {
    unsafe { linked::bench_fill(state, out.as_mut_ptr(), out.len()) }
}
