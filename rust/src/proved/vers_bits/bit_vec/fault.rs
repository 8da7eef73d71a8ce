//! The errors of functions on lists of bits.

use crate::rattle::prelude::*;

use crate::proved::vers_bits::bit_vec::BitVec;
use crate::rattle::AllocError;
use crate::rattle::Allocator;
use std::error::Error;
use std::fmt;

/// Why a list of bits was not made, or did not grow.
#[derive(Clone, Copy, PartialEq, Eq, Debug)]
pub enum GrowError {
    /// The allocator refused a request.
    Memory,
    /// The list would be longer than `MAX_LEN` bits.
    TooLong,
}

impl From<AllocError> for GrowError {
    fn from(_: AllocError) -> GrowError {
        GrowError::Memory
    }
}

/// A position is past the end of the list.
#[derive(Clone, Copy, PartialEq, Eq, Debug)]
pub struct OutOfRange;

impl fmt::Display for OutOfRange {
    fn fmt(&self, f: &mut fmt::Formatter<'_>) -> fmt::Result {
        f.write_str("out of range")
    }
}

impl Error for OutOfRange {}

/// Two lists to be masked have different lengths.
#[derive(Clone, Copy, PartialEq, Eq, Debug)]
pub struct LengthMismatch;

impl fmt::Display for LengthMismatch {
    fn fmt(&self, f: &mut fmt::Formatter<'_>) -> fmt::Result {
        f.write_str("mask cannot have different length than vector")
    }
}

impl Error for LengthMismatch {}

/// Why a list was not split.
#[derive(Clone, Copy, PartialEq, Eq, Debug)]
pub enum SplitCause {
    /// The position is past the end of the list.
    OutOfRange,
    /// The allocator refused a request.
    Memory,
}

/// A list that was not split, unchanged, and the reason.
pub struct SplitError<A: Allocator + Copy> {
    /// The list, unchanged.
    pub vec: BitVec<A>,
    /// Why it was not split.
    pub cause: SplitCause,
}
