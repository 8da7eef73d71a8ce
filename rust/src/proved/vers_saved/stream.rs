//! Saved forms, written to any writer and read from any reader.

use crate::rattle::prelude::*;

use crate::proved::vers_saved::fault::{LoadError, SaveError};
use crate::proved::vers_saved::form::{Form, Shape, put_head};
pub use crate::proved::vers_saved::gather::fill;
use crate::proved::vers_saved::gather::{BLOCK, form_from};
use crate::proved::vers_saved::saved::{GROUP, Loaded, Saved, count_words, list_of, put_group};
use crate::proved::vers_saved::words::put_word;
use crate::rattle::Allocator;
use crate::rattle::io::Sink;
use crate::rattle::io::Source;

// Writes a whole piece, or as much of it as the writer takes before an error.
fn write_piece<W: Sink>(writer: &mut W, piece: &[u8]) -> Result<(), SaveError> {
    let mut rest = piece;
    while !rest.is_empty() {
        match writer.write_once(rest) {
            Ok(0) => return Err(SaveError::Write),
            Ok(taken) => rest = &rest[taken..],
            Err(_) => return Err(SaveError::Write),
        }
    }
    Ok(())
}

// Flushes a buffer if it has no room for a group of words and one more.
fn make_room<W: Sink, A: Allocator>(
    writer: &mut W,
    buffer: &mut Vec<u8, A>,
) -> Result<(), SaveError> {
    if buffer.len() <= buffer.capacity() - 8 * (GROUP + 1) {
        return Ok(());
    }
    write_piece(writer, buffer.as_slice())?;
    buffer.clear();
    Ok(())
}

// Writes the saved form of a list with that shape, through a buffer.
fn write_words<S: Saved, W: Sink, A: Allocator>(
    writer: &mut W,
    mut buffer: Vec<u8, A>,
    shape: Shape,
    list: &S,
) -> Result<(), SaveError> {
    let count = count_words(list, shape);
    let prepared = list.prepare();
    let mut sum = put_head(&mut buffer, &S::kind(), shape);
    let mut done = 0;
    while done < count {
        if let Err(error) = make_room(writer, &mut buffer) {
            return Err(error);
        }
        let n = GROUP.min(count - done);
        sum = put_group(&mut buffer, sum, list, &prepared, done, n);
        done += n;
    }
    put_word(&mut buffer, sum);
    write_piece(writer, buffer.as_slice())
}

/// Writes the saved form of a list, in blocks of 64 KiB.
///
/// # Errors
///
/// `NoForm` if the list has no saved form, and `Memory` if the allocator refuses a request: nothing was
/// written. `Write` if the writer fails: a prefix of the form was written.
pub fn save<S: Saved, A: Allocator, W: Sink>(
    alloc: A,
    list: &S,
    writer: &mut W,
) -> Result<(), SaveError> {
    let shape = match list.shape() { Some(shape) => shape, _ => {
        return Err(SaveError::NoForm);
    } };
    let buffer = match Vec::with_capacity(alloc, BLOCK) { Ok(buffer) => buffer, _ => {
        return Err(SaveError::Memory);
    } };
    write_words(writer, buffer, shape, list)
}

/// Loads a list from a reader, the rest of which is its saved form, in any version. Reads blocks of 64 KiB, and keeps
/// the words. Allocates in proportion to the bytes that it has read, for any length in the head.
///
/// # Errors
///
/// `Read` if the reader fails; `Memory` if the allocator refuses a request; otherwise that of the test that
/// fails.
pub fn load<S: Loaded<A>, A: Allocator + Copy, R: Source>(
    alloc: A,
    reader: &mut R,
) -> Result<S, LoadError> {
    let Form {
        version,
        shape,
        mut words,
    } = form_from(alloc, S::kind(), reader)?;
    Ok(list_of(version, shape, &mut words)?)
}
