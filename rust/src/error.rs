//! Errors of the calls that build and change structures.

use crate::proved::vers_bits::bit_vec::GrowError;
use crate::rattle::AllocError;
use std::error::Error;
use std::fmt;

/// Why a structure can't be built.
///
/// ```
/// use vers_vecs::error::BuildError;
/// use vers_vecs::EliasFanoVec;
///
/// let error = EliasFanoVec::try_from_slice(&[3, 8, 5]).unwrap_err();
/// assert_eq!(error, BuildError::NotAscending { position: 2 });
/// assert_eq!(error.to_string(), "the numbers must ascend, and the one at position 2 isn't above the one before it");
/// ```
#[derive(Clone, Copy, PartialEq, Eq, Hash, Debug)]
#[non_exhaustive]
pub enum BuildError {
    /// The item at `position` is less than the one before it, or equal if items must differ.
    NotAscending {
        /// The index of the first such item.
        position: usize,
    },
    /// The item at `position` is not below its limit, such as the length.
    OutOfRange {
        /// The index of the first such item.
        position: usize,
    },
    /// The item at `position` has more bits than a symbol.
    SymbolTooWide {
        /// The index of the first such item.
        position: usize,
    },
    /// Symbols can't have this number of bits.
    UnsupportedWidth {
        /// The requested number of bits.
        bits: u16,
    },
    /// The number of bits is no multiple of the width of a symbol.
    PartialSymbol,
    /// Two lists have different lengths.
    LengthMismatch,
    /// The sampling step is 0.
    ZeroStep,
    /// The structure can't have this many items, or limits this great.
    TooLong,
    /// An allocation failed.
    OutOfMemory,
}

impl fmt::Display for BuildError {
    fn fmt(&self, f: &mut fmt::Formatter<'_>) -> fmt::Result {
        match self {
            BuildError::NotAscending { position } => {
                write!(f, "the numbers must ascend, and the one at position {} isn't above the one before it", position)
            }
            BuildError::OutOfRange { position } => {
                write!(f, "the number at position {} is not below its limit", position)
            }
            BuildError::SymbolTooWide { position } => {
                write!(f, "the number at position {} has more bits than a symbol", position)
            }
            BuildError::UnsupportedWidth { bits } => write!(f, "a symbol can't have {} bits here", bits),
            BuildError::PartialSymbol => f.write_str("the length is no multiple of the width of a symbol"),
            BuildError::LengthMismatch => f.write_str("the lengths do not match"),
            BuildError::ZeroStep => f.write_str("the sampling step is 0"),
            BuildError::TooLong => f.write_str("too many items, or too great limits, for this structure"),
            BuildError::OutOfMemory => f.write_str("out of memory"),
        }
    }
}

impl Error for BuildError {}

#[doc(hidden)]
impl From<AllocError> for BuildError {
    fn from(_: AllocError) -> BuildError {
        BuildError::OutOfMemory
    }
}

#[doc(hidden)]
impl From<GrowError> for BuildError {
    fn from(error: GrowError) -> BuildError {
        match error {
            GrowError::TooLong => BuildError::TooLong,
            GrowError::Memory => BuildError::OutOfMemory,
        }
    }
}

/// Returns the structure.
///
/// # Panics
/// If there is an error. The message is that of the error.
#[inline]
#[track_caller]
pub(crate) fn granted<T, E: Into<BuildError>>(made: Result<T, E>) -> T {
    match made {
        Ok(made) => made,
        Err(error) => refused(error.into()),
    }
}

#[cold]
#[inline(never)]
#[track_caller]
fn refused(error: BuildError) -> ! {
    panic!("{}", error)
}

/// Panics for bits past the end of a list, or more than a word has.
#[cold]
#[inline(never)]
#[track_caller]
pub(crate) fn no_bits(position: usize, n: usize) -> ! {
    panic!("the list has no {} bits from {} on", n, position)
}

/// Panics for a range of values that the list doesn't have.
#[cold]
#[inline(never)]
#[track_caller]
pub(crate) fn no_range(i: usize, j: usize) -> ! {
    if i > j {
        panic!("the range from {} to {} is empty", i, j);
    }
    panic!("the list has no range from {} to {}", i, j)
}

/// Panics for a position past the end of a list of bits.
#[cold]
#[inline(never)]
#[track_caller]
pub(crate) fn no_bit(position: usize) -> ! {
    panic!("the list has no bit at {}", position)
}
