//! Indexes of the bytes of files.

use crate::rattle::prelude::*;

use crate::programs::vers_files::loading::read;
use crate::programs::vers_files::place::Place;
use crate::programs::vers_files::saving::SaveFault;
use crate::rattle::Allocator;
use std::io::Read;
use crate::proved::text_index::{TextError, TextIndex};
use crate::proved::vers_saved::fault::{LoadError, SaveError};
use crate::proved::vers_saved::saved::Saved;
use crate::proved::vers_saved::stream::save as save_list;

// The number of bits of a byte.
const BYTE_BITS: u16 = 8;

/// Replaces the bytes of a place by the saved form of the index of a text, the bytes that a reader has left,
/// completely or not at all, and syncs the replacement. The bytes are read and indexed before that.
///
/// # Errors
///
/// `Read` if the reader fails; `TooLong` if there are more bytes than a text or a saved form can have; never
/// `BadLine`, `Refused` or `NoBits`. On `Settle`, the place has the new bytes; on any other error, the old ones.
pub fn index_to<A: Allocator + Copy, F: Read, P: Place>(
    alloc: A,
    file: &mut F,
    place: &mut P,
) -> Result<(), SaveFault> {
    match indexed(alloc, file) {
        Ok(text) => put(alloc, &text, place),
        Err(fault) => Err(fault),
    }
}

// Returns the index of the bytes that a reader has left.
fn indexed<A: Allocator + Copy, F: Read>(alloc: A, file: &mut F) -> Result<TextIndex<A>, SaveFault> {
    match read(alloc, file) {
        Ok(bytes) => index_of(alloc, bytes.as_slice()),
        Err(LoadError::Memory) => Err(SaveFault::OutOfMemory),
        Err(_) => Err(SaveFault::Read),
    }
}

// Returns the index of bytes.
fn index_of<A: Allocator + Copy>(alloc: A, bytes: &[u8]) -> Result<TextIndex<A>, SaveFault> {
    match TextIndex::from_bytes(alloc, bytes, BYTE_BITS) {
        Ok(text) => Ok(text),
        Err(TextError::TooLong) => Err(SaveFault::TooLong),
        Err(_) => Err(SaveFault::OutOfMemory),
    }
}

/// Replaces the bytes of a place by the saved form of the index of bytes, and syncs the replacement. Errors as for
/// `index_to`, except `Read`.
pub(crate) fn put_index<A: Allocator + Copy, P: Place>(
    alloc: A,
    bytes: &[u8],
    place: &mut P,
) -> Result<(), SaveFault> {
    match index_of(alloc, bytes) {
        Ok(index) => put(alloc, &index, place),
        Err(fault) => Err(fault),
    }
}

// Replaces the bytes of a place by the saved form of a list, and syncs the replacement.
fn put<A: Allocator, S: Saved, P: Place>(alloc: A, list: &S, place: &mut P) -> Result<(), SaveFault> {
    let Ok(mut beside) = place.begin() else {
        return Err(SaveFault::Begin);
    };
    if let Err(fault) = put_synced(alloc, list, place, &mut beside) {
        place.leave();
        return Err(fault);
    }
    if place.settle().is_err() {
        return Err(SaveFault::Settle);
    }
    Ok(())
}

// Writes the saved form of a list to a temporary file, and replaces the place's bytes by it, without settling.
fn put_synced<A: Allocator, S: Saved, P: Place>(
    alloc: A,
    list: &S,
    place: &mut P,
    beside: &mut P::Beside,
) -> Result<(), SaveFault> {
    match save_list(alloc, list, beside) {
        Ok(()) => {}
        Err(SaveError::NoForm) => return Err(SaveFault::TooLong),
        Err(SaveError::Memory) => return Err(SaveFault::OutOfMemory),
        Err(SaveError::Write) => return Err(SaveFault::Write),
    }
    if place.sync(beside).is_err() {
        return Err(SaveFault::Sync);
    }
    if place.put().is_err() {
        return Err(SaveFault::Put);
    }
    Ok(())
}
