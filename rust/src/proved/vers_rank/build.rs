//! The entries and the samples of a list of bits.

use crate::rattle::prelude::*;

use crate::proved::vers_rank::fast_rs_vec::{BLOCK, BLOCKS, SUPERBLOCK};
use crate::rattle::AllocError;
use crate::rattle::Allocator;
use crate::proved::vers_bits::bit_vec::BitVec;

// Returns the number of ones in a limb.
fn ones_of_limb<A: Allocator + Copy>(bits: &BitVec<A>, k: usize) -> usize {
    bits.limb(k).count_ones() as usize
}

// Returns the number of zeros in a block.
fn zeros_of_block<A: Allocator + Copy>(bits: &BitVec<A>, block: usize) -> usize {
    let len = bits.len();
    let mut ones: usize = 0;
    for k in 8 * block..(8 * block + 8).min(len.div_ceil(64)) {
        ones += ones_of_limb(bits, k);
    }
    (len - BLOCK * block).min(BLOCK) - ones
}

// Appends the entry of a block, and that of its superblock if the block is the first there. Returns the zeros
// before the superblock.
fn add_entry<A: Allocator + Copy>(
    bits: &BitVec<A>,
    block: usize,
    zeros: usize,
    base: usize,
    blocks: &mut Vec<u16, A>,
    superblocks: &mut Vec<u64, A>,
) -> Result<usize, AllocError> {
    let _ = bits.len();
    if block % BLOCKS == 0 {
        superblocks.push(zeros as u64)?;
        blocks.push(0)?;
        return Ok(zeros);
    }
    blocks.push((zeros - base) as u16)?;
    Ok(base)
}

/// Appends the entries of each block, and returns the number of zeros. Precondition: there are no entries yet.
/// Errors: `AllocError` if the allocator refuses a request.
pub fn add_entries<A: Allocator + Copy>(
    bits: &BitVec<A>,
    blocks: &mut Vec<u16, A>,
    superblocks: &mut Vec<u64, A>,
) -> Result<usize, AllocError> {
    let count = bits.len().div_ceil(BLOCK);
    blocks.reserve_exact(count)?;
    superblocks.reserve_exact(bits.len().div_ceil(SUPERBLOCK))?;
    let mut zeros: usize = 0;
    let mut base: usize = 0;
    for block in 0..count {
        base = add_entry(bits, block, zeros, base, blocks, superblocks)?;
        zeros += zeros_of_block(bits, block);
    }
    Ok(zeros)
}

// Returns the number of positions before a superblock that have the bit.
fn count_before<A: Allocator + Copy>(
    bits: &BitVec<A>,
    superblocks: &[u64],
    bit: bool,
    s: usize,
) -> usize {
    let _ = bits.len();
    let zeros = superblocks[s] as usize;
    if bit { SUPERBLOCK * s - zeros } else { zeros }
}

// Returns sample `j`, searching from an earlier one.
fn next_sample<A: Allocator + Copy>(
    bits: &BitVec<A>,
    superblocks: &[u64],
    bit: bool,
    from: usize,
    j: usize,
) -> usize {
    let mut s = from;
    while s + 1 < superblocks.len()
        && count_before(bits, superblocks, bit, s + 1).div_ceil(SUPERBLOCK) <= j
    {
        s += 1;
    }
    s
}

/// Returns the first `n` samples of a bit. Errors: `AllocError` if the allocator refuses a request.
pub fn samples<A: Allocator + Copy>(
    bits: &BitVec<A>,
    superblocks: &[u64],
    bit: bool,
    n: usize,
) -> Result<Vec<u64, A>, AllocError> {
    let mut made = Vec::with_capacity(bits.allocator(), n)?;
    let mut s: usize = 0;
    for j in 0..n {
        s = next_sample(bits, superblocks, bit, s, j);
        made.push(s as u64)?;
    }
    Ok(made)
}
