//! The load line of a sparse list of bits.

use crate::rattle::prelude::*;

use crate::programs::vers_cli::name::Load;
use crate::programs::vers_cli::sorted::{elements_of, rise_of};
use crate::programs::catalogue::structure::Structure;
use crate::rattle::AllocError;
use crate::rattle::Allocator;
use crate::proved::vers_sorted::sparse::SparseRSVec;
use crate::programs::vers_words::arguments::count_numbers;
use crate::programs::vers_words::loading::Loading;
use crate::programs::vers_words::text::{number, split_first_word};

/// Returns true if the load line `sparse LEN p ..` is accepted.
pub fn is_accepted(arguments: &[u8]) -> bool {
    let Some((word, positions)) = split_first_word(arguments) else {
        return false;
    };
    let Some(len) = number(word) else {
        return false;
    };
    match rise_of(positions, true) {
        None => false,
        Some(rise) => rise.is_below(len),
    }
}

/// Returns the result of the load line `sparse LEN p ..`. Errors: `AllocError` if the allocator refuses a
/// request.
pub fn load<'a, A: Allocator + Copy>(
    alloc: &'a A,
    arguments: &[u8],
) -> Result<Loading<Structure<'a, A>>, AllocError> {
    let Some((word, positions)) = split_first_word(arguments) else {
        return Ok(Loading::Malformed);
    };
    let Some(len) = number(word) else {
        return Ok(Loading::Malformed);
    };
    let Some(rise) = rise_of(positions, true) else {
        if count_numbers(positions).is_none() {
            return Ok(Loading::Malformed);
        }
        return Ok(Loading::Inadmissible);
    };
    if !rise.is_below(len) {
        return Ok(Loading::Inadmissible);
    }
    match elements_of(*alloc, positions, rise) {
        Ok(ones) => Ok(Loading::Accepted(Structure::Sparse(SparseRSVec::from_sorted(ones, len)))),
        Err(error) => Err(error),
    }
}
