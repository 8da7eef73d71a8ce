//! The numbers of ones before the words and superblocks of a list of bits.

use crate::rattle::prelude::*;

use crate::proved::word_rank::rank::{SUPERBLOCK, WORD, WORDS};
use crate::rattle::AllocError;
use crate::rattle::Allocator;
use crate::proved::vers_bits::bit_vec::BitVec;

// Returns the number of ones in a word.
fn ones_of_word<A: Allocator + Copy>(bits: &BitVec<A>, word: usize) -> usize {
    bits.limb(word).count_ones() as usize
}

// Appends the count of a word, and that of its superblock if the word is the first there. Returns the ones
// before the superblock.
fn add_count<A: Allocator + Copy>(
    bits: &BitVec<A>,
    word: usize,
    ones: usize,
    base: usize,
    words: &mut Vec<u16, A>,
    superblocks: &mut Vec<u64, A>,
) -> Result<usize, AllocError> {
    let _ = bits.len();
    if word % WORDS == 0 {
        superblocks.push(ones as u64)?;
        words.push(0)?;
        return Ok(ones);
    }
    words.push((ones - base) as u16)?;
    Ok(base)
}

/// Appends the counts of each word and superblock. Precondition: there are no counts yet. Errors: `AllocError` if
/// the allocator refuses a request.
pub fn add_counts<A: Allocator + Copy>(
    bits: &BitVec<A>,
    words: &mut Vec<u16, A>,
    superblocks: &mut Vec<u64, A>,
) -> Result<(), AllocError> {
    let mut ones: usize = 0;
    let mut base: usize = 0;
    for word in 0..bits.len().div_ceil(WORD) {
        base = add_count(bits, word, ones, base, words, superblocks)?;
        ones += ones_of_word(bits, word);
    }
    Ok(())
}
