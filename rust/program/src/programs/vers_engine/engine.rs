//! The engine: reads lines, and writes the answers of the lines of a read before the next read.

use crate::rattle::prelude::*;

use crate::programs::vers_engine::answerer::Answerer;
use crate::rattle::AllocError;
use crate::rattle::Allocator;
use std::io::Read;
use std::io::Write;
use crate::programs::vers_io::{Device, Sink, Source};
use crate::programs::vers_words::text::position_of;

/// Why a run ended before the end of its input.
#[derive(Clone, Copy, PartialEq, Eq, Debug)]
pub enum RunError {
    /// The reader returned an error, or an interruption.
    Read,
    /// The writer returned an error, or took no byte of a nonempty piece.
    Write,
    /// The allocator refused a request.
    Memory,
}

/// Returns the text of an error: `read failed`, `write failed` or `out of memory`.
pub fn fault_line(error: &RunError) -> &'static str {
    match error {
        RunError::Read => "read failed",
        RunError::Write => "write failed",
        RunError::Memory => "out of memory",
    }
}

impl From<AllocError> for RunError {
    fn from(_error: AllocError) -> RunError {
        RunError::Memory
    }
}

// Writes a whole piece, or as much of it as the writer takes before an error.
fn write_piece<W: Sink>(writer: &mut Device<W>, piece: &[u8]) -> Result<(), RunError> {
    let mut rest = piece;
    while !rest.is_empty() {
        match writer.write(rest) {
            Ok(0) => return Err(RunError::Write),
            Ok(taken) => rest = &rest[taken..],
            Err(_) => return Err(RunError::Write),
        }
    }
    Ok(())
}

// The capacity in bytes that is kept for the next line, and for the next answers.
const KEPT_LEN: usize = 262144;

// Removes all bytes, and frees the memory of a long line or answer.
fn empty<A: Allocator>(bytes: &mut Vec<u8, A>) {
    bytes.clear();
    bytes.shrink_to(KEPT_LEN);
}

// An answerer, the bytes that were read since the last end of a line, and the answers that are not written yet.
struct Session<S, A: Allocator> {
    store: S,
    pending: Vec<u8, A>,
    answers: Vec<u8, A>,
}

impl<S: Answerer<A>, A: Allocator> Session<S, A> {
    // Answers the line of the pending bytes and those of `end`.
    fn answer_line(&mut self, end: &[u8]) -> Result<(), AllocError> {
        if self.pending.is_empty() {
            return self.store.answer(end, &mut self.answers);
        }
        self.pending.extend_from_slice(end)?;
        self.store
            .answer(self.pending.as_slice(), &mut self.answers)?;
        empty(&mut self.pending);
        Ok(())
    }

    // Takes bytes up to the first end of a line and answers that line, or takes them all as pending. Returns
    // the number of bytes taken.
    fn take_line(&mut self, bytes: &[u8]) -> Result<usize, AllocError> {
        match position_of(b'\n', bytes) {
            Some(end) => {
                self.answer_line(&bytes[..end])?;
                Ok(end + 1)
            }
            None => {
                self.pending.extend_from_slice(bytes)?;
                Ok(bytes.len())
            }
        }
    }

    // Takes lines while there are bytes and room for answers. Returns the number of bytes taken.
    fn take_lines(&mut self, bytes: &[u8]) -> Result<usize, AllocError> {
        let mut taken = 0;
        while taken < bytes.len() && self.answers.len() < ANSWERS_LEN {
            taken += self.take_line(&bytes[taken..])?;
        }
        Ok(taken)
    }

    // Writes the gathered answers.
    fn write_answers<W: Sink>(&mut self, writer: &mut Device<W>) -> Result<(), RunError> {
        write_piece(writer, self.answers.as_slice())?;
        empty(&mut self.answers);
        Ok(())
    }

    // Takes bytes that were read, and writes the answers of all lines that end in them. If the allocator
    // refuses a request, the complete answers are written first.
    fn take_bytes<W: Sink>(&mut self, bytes: &[u8], writer: &mut Device<W>) -> Result<(), RunError> {
        let mut rest = bytes;
        while !rest.is_empty() {
            let answered = self.take_lines(rest);
            self.write_answers(writer)?;
            let taken = answered?;
            rest = &rest[taken..];
        }
        Ok(())
    }

    // At the end of the input, answers the last line, unless it is empty.
    fn finish<W: Sink>(&mut self, writer: &mut Device<W>) -> Result<(), RunError> {
        if self.pending.is_empty() {
            return Ok(());
        }
        self.answer_line(b"")?;
        self.write_answers(writer)
    }
}

// The number of bytes requested from the reader at once.
const READ_LEN: usize = 65536;

// Returns the buffer for reads.
fn read_buffer<A: Allocator>(alloc: A) -> Result<Vec<u8, A>, AllocError> {
    Vec::from_elem(alloc, 0u8, READ_LEN)
}

// The number of bytes of gathered answers that are written before the next line is taken.
const ANSWERS_LEN: usize = 65536;

/// Reads lines to the end of the input and writes the answer of each, every whole line before the next read.
///
/// A line ends with byte 10 or with the end of the input. `store` answers the lines, one after another. An answer
/// is complete before its first byte is written. The answers of the lines of one read are gathered, and written
/// together once they have 64 KiB or the lines end. Memory is needed for 64 KiB of input, for the longest line,
/// for gathered answers and for what `store` allocates.
///
/// # Errors
///
/// - `Read`: the reader returned an error. Every whole line that was read has been answered, and the line that
///   was cut off has no answer.
/// - `Write`: the writer returned an error or took no byte. A prefix of the answers was written.
/// - `Memory`: the allocator refused a request. The answers of the first lines were written, each complete.
///
/// The result is `Read` or `Write` exactly if the device has failed when the function returns. `Read` directly
/// follows a read of the inner reader that returned an error, and `Write` a failed write to the inner writer. A
/// reader that has not ended after 2^64 - 1 reads that returned bytes counts as failed too.
pub fn answer_lines<A: Allocator + Copy, S: Answerer<A>, R: Source, W: Sink>(
    alloc: A,
    store: S,
    reader: &mut Device<R>,
    writer: &mut Device<W>,
) -> Result<(), RunError> {
    let mut buffer = read_buffer(alloc)?;
    let mut session = Session {
        store,
        pending: Vec::new(alloc),
        answers: Vec::new(alloc),
    };
    serve(&mut session, buffer.as_mut_slice(), reader, writer)
}

// Reads and answers to the end of the input, with no line read yet.
fn serve<A: Allocator, S: Answerer<A>, R: Source, W: Sink>(
    session: &mut Session<S, A>,
    buffer: &mut [u8],
    reader: &mut Device<R>,
    writer: &mut Device<W>,
) -> Result<(), RunError> {
    'reads: loop {
        match reader.read(buffer) {
            Ok(0) => return session.finish(writer),
            Ok(n) => session.take_bytes(&buffer[..n], writer)?,
            Err(_) => return Err(RunError::Read),
        }
    }
}
