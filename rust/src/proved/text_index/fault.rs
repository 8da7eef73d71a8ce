//! Why a text was not indexed.

use crate::rattle::prelude::*;

use crate::rattle::AllocError;

/// Why a text was not indexed: the first reason that applies.
#[derive(Clone, Copy, PartialEq, Eq, Debug)]
pub enum TextError {
    /// The width of the symbols is 0 or above 16.
    WidthOutOfRange,
    /// The step of the samples is 0.
    NoStep,
    /// There are more than `MAX_LEN` symbols.
    TooLong,
    /// A symbol exceeds the given width.
    WideSymbol,
    /// The allocator refused a request.
    Memory,
}

impl From<AllocError> for TextError {
    fn from(_: AllocError) -> TextError {
        TextError::Memory
    }
}

/// Why no index was made from a column.
#[derive(Clone, Copy, PartialEq, Eq, Debug)]
pub enum ColumnError {
    /// No text has this column, row of the whole text, width, step and rows of the sampled positions.
    NotAText,
    /// The allocator refused a request, perhaps before it was known whether there is such a text.
    Memory,
}

impl From<AllocError> for ColumnError {
    fn from(_: AllocError) -> ColumnError {
        ColumnError::Memory
    }
}
