//! The symbols of a list of bits, and the low bits of numbers, as integers of the least type.

use crate::rattle::prelude::*;

use crate::proved::vers_wavelet::wavelet::integer::Integer;
use crate::rattle::AllocError;
use crate::rattle::Allocator;
use crate::proved::vers_bits::bit_vec::BitVec;

/// Returns the symbols of `width` bits each in a list of bits, as integers. Precondition: `width` is from 1 to the
/// number of bits of the type. Errors: `AllocError` if the allocator refuses a request.
pub fn unpacked<N: Integer, A: Allocator + Copy>(
    bits: &BitVec<A>,
    width: usize,
) -> Result<Vec<N, A>, AllocError> {
    let count = bits.len() / width;
    let mut numbers = Vec::with_capacity(bits.allocator(), count)?;
    for e in 0..count {
        numbers.push(N::of(bits.unpack_element_unchecked(e, width)))?;
    }
    Ok(numbers)
}

// Returns the `width` low bits of each number, as integers.
pub(super) fn low_integers<N: Integer, A: Allocator + Copy>(
    alloc: A,
    numbers: &[u64],
    width: usize,
) -> Result<Vec<N, A>, AllocError> {
    let mask = (1 << width) - 1;
    let mut low = Vec::with_capacity(alloc, numbers.len())?;
    for i in 0..numbers.len() {
        low.push(N::of(numbers[i] & mask))?;
    }
    Ok(low)
}
