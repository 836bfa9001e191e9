//! Stands in for the types of the original's root: a reader, a writer and a duplexer, each a stream and the original's
//! state beside it, and the type of a text that is vouched for.

use crate::text_input::TextInput;
use crate::text_output::TextOutput;
use crate::{Bufferable, HalfDuplexLayered, ReadLayered, ReadStrLayered, Status, WriteLayered, WriteStr};
use std::io::{self, Read, Write};

/// A stream that is read and cleaned.
pub struct TextReader<Inner> {
    pub(crate) input: TextInput,
    pub(crate) inner: Inner,
}

/// A stream that is checked and written.
pub struct TextWriter<Inner> {
    pub(crate) output: TextOutput,
    pub(crate) inner: Inner,
}

/// Both. The original names it, and the oracle makes none.
pub struct TextDuplexer<Inner> {
    pub(crate) input: TextInput,
    pub(crate) output: TextOutput,
    pub(crate) inner: Inner,
}

/// A text that is vouched for.
pub struct TextSubstr {
    bytes: Vec<u8>,
}

impl TextSubstr {
    pub(crate) fn as_bytes_mut(&mut self) -> &mut [u8] {
        &mut self.bytes
    }
}

impl AsRef<str> for TextSubstr {
    fn as_ref(&self) -> &str {
        std::str::from_utf8(&self.bytes).expect("a text is UTF-8")
    }
}

impl<Inner: ReadStrLayered> Read for TextReader<Inner> {
    fn read(&mut self, buf: &mut [u8]) -> io::Result<usize> {
        TextInput::read(self, buf)
    }
}

impl<Inner: ReadStrLayered> Bufferable for TextReader<Inner> {
    fn abandon(&mut self) {
        TextInput::abandon(self)
    }
}

impl<Inner: ReadStrLayered> ReadLayered for TextReader<Inner> {
    fn read_with_status(&mut self, buf: &mut [u8]) -> io::Result<(usize, Status)> {
        TextInput::read_with_status(self, buf)
    }
}

impl<Inner: ReadStrLayered> ReadStrLayered for TextReader<Inner> {}

impl<Inner: WriteStr + WriteLayered> Write for TextWriter<Inner> {
    fn write(&mut self, buf: &[u8]) -> io::Result<usize> {
        TextOutput::write(self, buf)
    }

    fn flush(&mut self) -> io::Result<()> {
        TextOutput::flush(self)
    }
}

impl<Inner: HalfDuplexLayered + ReadStrLayered + WriteStr> Read for TextDuplexer<Inner> {
    fn read(&mut self, buf: &mut [u8]) -> io::Result<usize> {
        TextInput::read(self, buf)
    }
}

impl<Inner: HalfDuplexLayered + ReadStrLayered + WriteStr> Bufferable for TextDuplexer<Inner> {
    fn abandon(&mut self) {
        TextOutput::abandon(self)
    }
}

impl<Inner: HalfDuplexLayered + ReadStrLayered + WriteStr> ReadLayered for TextDuplexer<Inner> {
    fn read_with_status(&mut self, buf: &mut [u8]) -> io::Result<(usize, Status)> {
        TextInput::read_with_status(self, buf)
    }
}

impl<Inner: HalfDuplexLayered + ReadStrLayered + WriteStr> ReadStrLayered for TextDuplexer<Inner> {}

impl<Inner: HalfDuplexLayered + ReadStrLayered + WriteStr> Write for TextDuplexer<Inner> {
    fn write(&mut self, buf: &[u8]) -> io::Result<usize> {
        TextOutput::write(self, buf)
    }

    fn flush(&mut self) -> io::Result<()> {
        TextOutput::flush(self)
    }
}
