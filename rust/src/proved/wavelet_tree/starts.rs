//! The numbers of lesser elements of each symbol.

use crate::rattle::prelude::*;

use crate::rattle::AllocError;
use crate::rattle::Allocator;
use crate::proved::vers_wavelet::wavelet::Integer;

// Returns the least number that exceeds `width` bits.
pub(crate) fn symbol_limit(width: u16) -> usize {
    1 << width
}

// Returns for each symbol below a limit, and for the limit, the number of elements below it. Precondition: the elements
// are below the limit.
pub(crate) fn starts_of<T: Integer, A: Allocator + Copy>(
    alloc: A,
    items: &[T],
    limit: usize,
) -> Result<Vec<u64, A>, AllocError> {
    let starts = lesser_counts(alloc, items, limit)?;
    Ok(starts)
}

// Returns the same numbers.
fn lesser_counts<T: Integer, A: Allocator + Copy>(
    alloc: A,
    items: &[T],
    limit: usize,
) -> Result<Vec<u64, A>, AllocError> {
    let mut starts = Vec::with_capacity(alloc, limit + 1)?;
    starts.resize(limit + 1, 0)?;
    put_starts(items, starts.as_mut_slice());
    Ok(starts)
}

// Writes for each symbol the number of elements below it.
fn put_starts<T: Integer>(items: &[T], starts: &mut [u64]) {
    count_symbols(items, starts);
    let mut before: u64 = 0;
    for number in 0..starts.len() {
        let many = starts[number];
        starts[number] = before;
        before += many;
    }
}

// Counts the occurrences of each symbol.
fn count_symbols<T: Integer>(items: &[T], counts: &mut [u64]) {
    counts.fill(0);
    let len = T::len_of(items);
    for position in 0..len {
        counts[number_at(items, position)] += 1;
    }
}

// Returns the number at a position.
#[inline(always)]
fn number_at<T: Integer>(items: &[T], position: usize) -> usize {
    items[position].number()
}
