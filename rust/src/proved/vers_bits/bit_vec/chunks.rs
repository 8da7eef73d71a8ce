//! Operations on all words of a list: by chunks or lanes, and word by word at the end.

use crate::rattle::prelude::*;

use crate::rattle::lanes::*;

/// The number of words counted at once.
const CHUNK: usize = 4;

/// The number of words compared at once.
const LANES: usize = 8;

// Returns the number of ones of the words.
pub(super) fn ones_of(words: &[u64]) -> u64 {
    let (chunks, end) = words.as_arrays::<CHUNK>();
    let mut ones: u64 = 0;
    for chunk in chunks {
        ones += ones_of_chunk(chunk);
    }
    for word in end {
        ones += u64::from(word.count_ones());
    }
    ones
}

// Returns the number of ones of a chunk.
#[inline(always)]
fn ones_of_chunk(chunk: &[u64; CHUNK]) -> u64 {
    let [a, b, c, d] = *chunk;
    u64::from(a.count_ones() + b.count_ones() + c.count_ones() + d.count_ones())
}

// Returns true if both slices are equal. Precondition: they have the same length.
pub(super) fn are_same(words: &[u64], others: &[u64]) -> bool {
    let (chunks, end) = words.as_arrays::<LANES>();
    let (other_chunks, other_end) = others.as_arrays::<LANES>();
    for k in 0..chunks.len() {
        if !agree(chunks.at(k), other_chunks.at(k)) {
            return false;
        }
    }
    for k in 0..end.len() {
        if end[k] != other_end[k] {
            return false;
        }
    }
    true
}

// Returns true if two chunks are equal, by lanes.
#[inline(always)]
fn agree(chunk: &[u64; LANES], other: &[u64; LANES]) -> bool {
    let lanes = u64x8::from_array(*chunk);
    !lanes.simd_ne(u64x8::from_array(*other)).any()
}
