//! Why no tree was made from parts.

use crate::rattle::prelude::*;

use crate::rattle::AllocError;

/// Why no tree was made from parts.
#[derive(Clone, Copy, PartialEq, Eq, Debug)]
pub enum PartsError {
    /// No list of fewer than 2^63 symbols of at most 16 bits has this width and these parts.
    NotAList,
    /// The allocator refused a request.
    Memory,
}

impl From<AllocError> for PartsError {
    fn from(_: AllocError) -> PartsError {
        PartsError::Memory
    }
}
