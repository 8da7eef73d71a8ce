//! The items of an iterator as a vector, up to a greatest length.

use crate::rattle::prelude::*;

use crate::rattle::Allocator;
use crate::proved::vers_bits::bit_vec::GrowError;

// Returns the items of a finite iterator, with no spare capacity. Tests before each allocation that they are at most
// `most`.
pub(super) fn gathered<A: Allocator + Copy, I: Iterator<Item = u64>>(
    alloc: A,
    items: I,
    most: usize,
) -> Result<Vec<u64, A>, GrowError> {
    let known = items.size_hint().0.min(most);
    let mut list = Vec::new(alloc);
    for item in items {
        if list.len() == most {
            return Err(GrowError::TooLong);
        }
        if list.is_empty() && list.reserve_exact(known).is_err() {
            return Err(GrowError::Memory);
        }
        if list.push(item).is_err() {
            return Err(GrowError::Memory);
        }
    }
    if list.len() < list.capacity() {
        return Ok(Vec::from_slice(alloc, list.as_slice())?);
    }
    Ok(list)
}
