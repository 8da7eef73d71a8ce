//! A reader or a writer that records whether it has failed.

use crate::rattle::prelude::*;

use crate::programs::vers_io::once::{Sink, Source};
use std::io;
use std::io::Read;
use std::io::Write;

/// A reader or a writer that records whether it has failed: a read, a write or a flush returned an error, which
/// may be an interruption, or a write took no byte of a nonempty piece. Each read, write and flush is forwarded
/// once, and its result is returned. At most 2^64 - 1 reads may return bytes.
pub struct Device<D> {
    inner: D,
    has_failed: bool,
    reads_left: u64,
}

impl<D> Device<D> {
    /// Returns the reader or writer `inner`, which has not failed so far.
    pub fn new(inner: D) -> Device<D> {
        Device {
            inner,
            has_failed: false,
            reads_left: u64::MAX,
        }
    }

    /// Returns true if it has failed.
    pub fn failed(&self) -> bool {
        self.has_failed
    }

    /// Returns the inner reader or writer.
    pub fn into_inner(self) -> D {
        self.inner
    }

    // Records a failure if `is_fault`.
    fn note(&mut self, is_fault: bool) {
        self.has_failed |= is_fault;
    }
}

impl<R: Source> Read for Device<R> {
    /// Reads once from the inner reader. An error is a failure. After 2^64 - 1 reads that returned bytes it
    /// returns an error without reading.
    fn read(&mut self, buf: &mut [u8]) -> io::Result<usize> {
        if self.reads_left == 0 {
            self.note(true);
            return Err(io::Error::from(io::ErrorKind::TimedOut));
        }
        let result = self.inner.read_once(buf);
        self.note(result.is_err());
        if let Ok(1..) = &result {
            self.reads_left -= 1;
        }
        result
    }
}

impl<W: Sink> Write for Device<W> {
    /// Writes once to the inner writer. An error is a failure, and so is a write that takes no byte of a
    /// nonempty piece.
    fn write(&mut self, buf: &[u8]) -> io::Result<usize> {
        let result = self.inner.write_once(buf);
        self.note(match &result {
            Ok(taken) => *taken == 0 && !buf.is_empty(),
            Err(_) => true,
        });
        result
    }

    /// Flushes the inner writer. An error is a failure.
    fn flush(&mut self) -> io::Result<()> {
        let result = self.inner.flush_once();
        self.note(result.is_err());
        result
    }
}
