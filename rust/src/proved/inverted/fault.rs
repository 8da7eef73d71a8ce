//! Why an inverted index was not made.

use crate::rattle::prelude::*;

use crate::rattle::AllocError;

/// Why an inverted index was not made: the first reason that applies.
#[derive(Clone, Copy, PartialEq, Eq, Debug)]
pub enum InvertedError {
    /// The number of terms times the limit of documents doesn't fit in 64 bits.
    TooLarge,
    /// A term or a document is not below its limit.
    OutOfRange,
    /// A pair is not above the previous one.
    NotAscending,
    /// The allocator refused a request.
    Memory,
}

impl From<AllocError> for InvertedError {
    fn from(_: AllocError) -> InvertedError {
        InvertedError::Memory
    }
}
