//! Why a list of documents was not made.

use crate::rattle::prelude::*;

use crate::rattle::AllocError;

/// Why a list of documents was not made: the first reason that applies.
#[derive(Clone, Copy, PartialEq, Eq, Debug)]
pub enum PostingsError {
    /// The number of costs differs from the number of documents.
    LengthMismatch,
    /// There are more than `MAX_LEN` documents.
    TooLong,
    /// A document is not above the previous one.
    NotAscending,
    /// The allocator refused a request.
    Memory,
}

impl From<AllocError> for PostingsError {
    fn from(_: AllocError) -> PostingsError {
        PostingsError::Memory
    }
}
