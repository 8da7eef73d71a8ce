//! The line program.

use crate::rattle::prelude::*;

use crate::programs::vers_cli::store::Store;
use crate::rattle::Allocator;
use crate::programs::vers_engine::{RunError, answer_lines};
use crate::programs::vers_io::{Device, Sink, Source};

/// Reads lines to the end of the input and writes the answer of each, every whole line before the next read.
///
/// A line ends with byte 10 or with the end of the input, and its words are separated by spaces. An answer line
/// is complete before its first byte is written. The answers of the lines of one read are gathered, and written
/// together once they have 64 KiB or the lines end. The answer is `bad line` if a line is malformed, `wrong
/// structure` if the current structure has no such query, and `refused` if a precondition fails; the current
/// structure is then unchanged, and the run continues. Memory is needed for 64 KiB of input, for the longest line,
/// for gathered answers and for the current structure.
///
/// # Errors
///
/// - `Read`: the reader returned an error. Every whole line that was read has been answered, and the line that
///   was cut off has no answer.
/// - `Write`: the writer returned an error or took no byte. A prefix of the answers was written.
/// - `Memory`: the allocator refused a request. The answers of the first lines were written, each complete.
///
/// The result is `Read` or `Write` exactly if the device has failed when the function returns. `Read` directly
/// follows a read of the inner reader that returned an error, and `Write` a failed write to the inner writer. A
/// reader that has not ended after 2^64 - 1 reads that returned bytes counts as failed too.
pub fn run<A: Allocator + Copy, R: Source, W: Sink>(
    alloc: A,
    reader: &mut Device<R>,
    writer: &mut Device<W>,
) -> Result<(), RunError> {
    run_from(Store::new(&alloc), reader, writer)
}

/// Does what `run` does, with the structure in `store` before the first line.
///
/// # Errors
///
/// As for `run`.
pub fn run_from<A: Allocator + Copy, R: Source, W: Sink>(
    store: Store<'_, A>,
    reader: &mut Device<R>,
    writer: &mut Device<W>,
) -> Result<(), RunError> {
    answer_lines(*store.allocator(), store, reader, writer)
}
