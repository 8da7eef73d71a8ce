//! The line program over texts.

use crate::rattle::prelude::*;

use crate::programs::vers_texts::store::Store;
use crate::rattle::Allocator;
use crate::programs::vers_engine::{RunError, answer_lines};
use crate::programs::vers_io::{Device, Sink, Source};

/// Reads lines to the end of the input and writes the answer of each, every whole line before the next read. The text
/// before the first line is that of `store`, if it has one.
///
/// A line ends with byte 10 or with the end of the input, and its words are separated by spaces. The answer is
/// `bad line` if a line is malformed, `wrong structure` if it queries a text and there is none, and `refused` if
/// a precondition fails; the current text is then unchanged, and the run continues. Answers are gathered and
/// written as `answer_lines` does. Memory is needed as there, and for the numbers of a line and the text.
///
/// # Errors
///
/// - `Read`: the reader returned an error. Every whole line that was read has been answered, and the line that
///   was cut off has no answer.
/// - `Write`: the writer returned an error or took no byte. A prefix of the answers was written.
/// - `Memory`: the allocator refused a request. The answers of the first lines were written, each complete.
///
/// The result is `Read` or `Write` exactly if the device has failed when the function returns. `Read` directly
/// follows a read of the inner reader that returned an error, and `Write` a failed write to the inner writer. A
/// reader that has not ended after 2^64 - 1 reads that returned bytes counts as failed too.
pub fn run_from<A: Allocator + Copy, R: Source, W: Sink>(
    alloc: A,
    store: Store<A>,
    reader: &mut Device<R>,
    writer: &mut Device<W>,
) -> Result<(), RunError> {
    answer_lines(alloc, store, reader, writer)
}
