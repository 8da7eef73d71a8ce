//! The load line of a list of bits.

use crate::rattle::prelude::*;

use crate::programs::vers_cli::name::Load;
use crate::programs::catalogue::structure::Structure;
use crate::rattle::AllocError;
use crate::rattle::Allocator;
use crate::proved::vers_bits::bit_vec::{BitVec, MAX_LEN};
use crate::proved::vers_rank::fast_rs_vec::RsVec;
use crate::programs::vers_words::arguments::bit_digits;
use crate::programs::vers_words::loading::Loading;

/// Returns true if the load line `bits S` is accepted.
pub fn is_accepted(arguments: &[u8]) -> bool {
    match bit_digits(arguments) {
        None => false,
        Some(digits) => digits.len() <= MAX_LEN,
    }
}

/// Returns the result of the load line `bits S`. Errors: `AllocError` if the allocator refuses a request.
pub fn load<'a, A: Allocator + Copy>(
    alloc: &'a A,
    arguments: &[u8],
) -> Result<Loading<Structure<'a, A>>, AllocError> {
    let Some(digits) = bit_digits(arguments) else {
        return Ok(Loading::Malformed);
    };
    if digits.len() > MAX_LEN {
        return Ok(Loading::Inadmissible);
    }
    match RsVec::from_bit_vec(bit_vec(*alloc, digits)?) {
        Ok(bits) => Ok(Loading::Accepted(Structure::Bits(bits))),
        Err(error) => Err(error),
    }
}

/// Returns the list of the bits in digits 0 and 1. Precondition: there are no other digits, and at most
/// `MAX_LEN`. Errors: `AllocError` if the allocator refuses a request.
pub fn bit_vec<A: Allocator + Copy>(alloc: A, digits: &[u8]) -> Result<BitVec<A>, AllocError> {
    // The digit 1 is odd and 0 is even. The list is never too long, so an error is of memory.
    BitVec::from_bits(alloc, digits).map_err(|_| AllocError)
}
