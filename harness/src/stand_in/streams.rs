//! Stands in for the crates `layered_io` and `utf8_io`: the traits of layered streams. The defaults are what a call
//! of the oracle needs; no real stream stands behind them.

use std::io::{self, IoSlice, Read, Write};

/// What a read says of the stream: it goes on, it pushes what was read, or it has ended.
#[derive(Clone, Copy, PartialEq, Eq)]
pub enum Status {
    Active,
    Push,
    End,
}

impl Status {
    pub fn active() -> Self {
        Self::Active
    }

    pub fn is_end(&self) -> bool {
        *self == Self::End
    }
}

/// A stream that may keep something back.
pub trait Bufferable {
    fn abandon(&mut self);

    fn suggested_buffer_size(&self) -> usize {
        0
    }
}

/// A stream read with a status.
pub trait ReadLayered: Read + Bufferable {
    fn read_with_status(&mut self, buf: &mut [u8]) -> io::Result<(usize, Status)>;

    fn read_exact_using_status(&mut self, _buf: &mut [u8]) -> io::Result<Status> {
        Err(io::ErrorKind::Unsupported.into())
    }

    fn minimum_buffer_size(&self) -> usize {
        0
    }
}

/// A stream whose bytes are UTF-8.
pub trait ReadStrLayered: ReadLayered {}

/// A stream that can be closed.
pub trait WriteLayered: Write + Bufferable {
    fn close(&mut self) -> io::Result<()>;
}

/// A stream that takes strings.
pub trait WriteStr: Write {
    fn write_str(&mut self, s: &str) -> io::Result<()>;
}

/// Both directions in one.
pub trait HalfDuplexLayered: ReadLayered + WriteLayered {}

/// A read that forgets the status.
pub fn default_read<R: ReadLayered>(stream: &mut R, buf: &mut [u8]) -> io::Result<usize> {
    stream.read_with_status(buf).map(|(size, _)| size)
}

/// A write of the first part that is not empty.
pub fn default_write_vectored<W: Write>(stream: &mut W, bufs: &[IoSlice<'_>]) -> io::Result<usize> {
    let first = bufs.iter().find(|part| !part.is_empty());
    stream.write(first.map_or(&[], |part| part))
}
