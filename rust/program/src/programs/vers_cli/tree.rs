//! The load line of a list of parentheses.

use crate::rattle::prelude::*;

use crate::programs::vers_cli::bits::bit_vec;
use crate::programs::vers_cli::name::Load;
use crate::programs::catalogue::structure::Structure;
use crate::rattle::AllocError;
use crate::rattle::Allocator;
use crate::proved::vers_trees::trees::bp::{BpTree, MAX_LEN};
use crate::programs::vers_words::arguments::bit_digits;
use crate::programs::vers_words::loading::Loading;

/// Returns true if the load line `tree S` is accepted.
pub fn is_accepted(arguments: &[u8]) -> bool {
    match bit_digits(arguments) {
        None => false,
        Some(digits) => digits.len() <= MAX_LEN,
    }
}

/// Returns the result of the load line `tree S`. Errors: `AllocError` if the allocator refuses a request.
pub fn load<'a, A: Allocator + Copy>(
    alloc: &'a A,
    arguments: &[u8],
) -> Result<Loading<Structure<'a, A>>, AllocError> {
    let Some(digits) = bit_digits(arguments) else {
        return Ok(Loading::Malformed);
    };
    if digits.len() > MAX_LEN {
        return Ok(Loading::Inadmissible);
    }
    // The list is never too long, so an error is of memory.
    match boxed(alloc, BpTree::from_bit_vector(bit_vec(alloc, digits)?)) {
        Ok(tree) => Ok(Loading::Accepted(Structure::Tree(tree))),
        Err(error) => Err(error),
    }
}

// Returns a value in a box. Its type is generic, so that the proof doesn't go through its fields.
fn boxed<T: Sized, E: Sized, A: Allocator>(
    alloc: A,
    made: Result<T, E>,
) -> Result<Box<T, A>, AllocError> {
    match made {
        Ok(value) => Ok(Box::new(alloc, value)?),
        Err(_) => Err(AllocError),
    }
}
