//! Readers and writers for contracts that distinguish one call from two.

use crate::rattle::prelude::*;

use std::io;
use std::io::Read;
use std::io::Write;

/// A reader whose single reads a contract can name. Every reader implements it.
///
/// The contract of `Read` for one read also holds for two reads in a row. The relation `read_gives`
/// distinguishes them: code over any source knows it only of a single call.
pub trait Source: Read {
    /// Reads once.
    fn read_once(&mut self, buf: &mut [u8]) -> io::Result<usize>;
}

impl<R: Read> Source for R {
    fn read_once(&mut self, buf: &mut [u8]) -> io::Result<usize> {
        self.read(buf)
    }
}

/// A writer whose single writes and flushes a contract can name, as `Source` is for readers. Every writer
/// implements it.
pub trait Sink: Write {
    /// Writes once.
    fn write_once(&mut self, buf: &[u8]) -> io::Result<usize>;

    /// Flushes once.
    fn flush_once(&mut self) -> io::Result<()>;
}

impl<W: Write> Sink for W {
    fn write_once(&mut self, buf: &[u8]) -> io::Result<usize> {
        self.write(buf)
    }

    fn flush_once(&mut self) -> io::Result<()> {
        self.flush()
    }
}
