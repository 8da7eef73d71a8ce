//! Widths of the symbols of texts, and positions as plain numbers.

use crate::rattle::prelude::*;

use crate::rattle::AllocError;
use crate::rattle::Global;

/// Returns a width in 16 bits: the same up to 16, and otherwise 17, which no text has either.
pub fn narrowed(width: u32) -> u16 {
    width.min(17) as u16
}

/// Returns positions as plain numbers. Errors: `AllocError` if the allocator refuses a request.
pub fn as_numbers(alloc: Global, positions: &[usize]) -> Result<Vec<u64, Global>, AllocError> {
    let mut numbers = Vec::with_capacity(alloc, positions.len())?;
    for position in positions {
        numbers.push(*position as u64)?;
    }
    Ok(numbers)
}
