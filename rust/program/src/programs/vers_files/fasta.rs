//! Indexes of FASTA files.

use crate::rattle::prelude::*;

use crate::programs::vers_files::indexing::put_index;
use crate::programs::vers_files::loading::read;
use crate::programs::vers_files::place::Place;
use crate::programs::vers_files::saving::SaveFault;
use crate::rattle::Allocator;
use std::io::Read;
use crate::proved::vers_saved::fault::LoadError;
use crate::programs::vers_texts::{FastaError, fasta_text};

/// The first line of a file that is none of a FASTA file.
#[derive(Clone, Copy, PartialEq, Eq, Debug)]
pub struct WrongLine {
    /// Its number, from 1.
    pub number: usize,
}

/// Replaces the bytes of a place by the saved form of the index of a FASTA file, the bytes that a reader has left,
/// completely or not at all, and syncs the replacement. The text that is indexed is that of
/// `vers_texts::fasta_text`. The inner error is why it was not saved, as for `index_to`.
///
/// # Errors
///
/// The first line that is none of a FASTA file. The place is unchanged then.
pub fn index_fasta_to<A: Allocator + Copy, F: Read, P: Place>(
    alloc: A,
    file: &mut F,
    place: &mut P,
) -> Result<Result<(), SaveFault>, WrongLine> {
    match text_in(alloc, file) {
        Ok(Ok(text)) => Ok(put_index(alloc, text.as_slice(), place)),
        Ok(Err(fault)) => Ok(Err(fault)),
        Err(line) => Err(line),
    }
}

// Returns the text of a FASTA file, the bytes that a reader has left, which are dropped.
fn text_in<A: Allocator + Copy, F: Read>(
    alloc: A,
    file: &mut F,
) -> Result<Result<Vec<u8, A>, SaveFault>, WrongLine> {
    match read(alloc, file) {
        Ok(bytes) => text_of(alloc, bytes.as_slice()),
        Err(LoadError::Memory) => Ok(Err(SaveFault::OutOfMemory)),
        Err(_) => Ok(Err(SaveFault::Read)),
    }
}

// Returns the text of a FASTA file.
fn text_of<A: Allocator>(alloc: A, bytes: &[u8]) -> Result<Result<Vec<u8, A>, SaveFault>, WrongLine> {
    match fasta_text(alloc, bytes) {
        Ok(text) => Ok(Ok(text)),
        Err(FastaError::Line(number)) => Err(WrongLine { number }),
        Err(FastaError::Memory) => Ok(Err(SaveFault::OutOfMemory)),
    }
}
