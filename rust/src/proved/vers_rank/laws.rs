//! Laws of indexed lists.

use crate::rattle::prelude::*;

use crate::proved::vers_rank::fast_rs_vec::RsVec;
use crate::rattle::AllocError;
use crate::rattle::Allocator;
use crate::proved::vers_bits::bit_vec::BitVec;

/// The entries and the samples of an index take at most 56 bytes for each superblock of 8192 bits, and 32 more.
pub fn index_is_small() {}

/// Returns the same bits, after making an indexed list of them. Errors: `AllocError` if the allocator refuses a
/// request.
pub fn bits_come_back<A: Allocator + Copy>(bits: BitVec<A>) -> Result<BitVec<A>, AllocError> {
    let indexed = RsVec::from_bit_vec(bits)?;
    Ok(indexed.into_bit_vec())
}
