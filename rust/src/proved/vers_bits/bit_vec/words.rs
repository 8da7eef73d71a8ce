//! Edits of the words that represent a list of bits.

use crate::rattle::prelude::*;

use crate::proved::vers_bits::bit_vec::{GrowError, MAX_LEN};
use crate::rattle::AllocError;
use crate::rattle::Allocator;

// Returns the low `n` bits of a word.
pub(super) fn low_part(word: u64, n: usize) -> u64 {
    word & (u64::MAX >> (64 - n))
}

// Appends a word.
fn push_word<A: Allocator + Copy>(words: &mut Vec<u64, A>, word: u64) -> Result<(), AllocError> {
    if words.push(word).is_err() {
        return Err(AllocError);
    }
    Ok(())
}

// Sets the bits of word `k` that are set in `bits`.
fn or_into<A: Allocator + Copy>(words: &mut Vec<u64, A>, k: usize, bits: u64) {
    words[k] |= bits;
}

// Appends `n` bits, those of the number `bits`, to the list in the words. Precondition: the last word has room
// for them.
pub(super) fn add_within<A: Allocator + Copy>(
    words: &mut Vec<u64, A>,
    len: usize,
    bits: u64,
    n: usize,
) {
    or_into(words, len / 64, bits << (len % 64));
}

// Appends `n` bits, those of the number `bits`, to the list in the words.
#[inline(always)]
pub(super) fn add_bits<A: Allocator + Copy>(
    words: &mut Vec<u64, A>,
    len: usize,
    bits: u64,
    n: usize,
) -> Result<(), AllocError> {
    let used = len % 64;
    if used == 0 {
        return push_word(words, bits);
    }
    if n <= 64 - used {
        add_within(words, len, bits, n);
        return Ok(());
    }
    push_word(words, bits >> (64 - used))?;
    or_into(words, len / 64, bits << used);
    Ok(())
}

// Appends `n` zeros to the list in the words.
pub(super) fn add_zeros<A: Allocator + Copy>(
    words: &mut Vec<u64, A>,
    len: usize,
    n: usize,
) -> Result<(), AllocError> {
    words.resize((len + n).div_ceil(64), 0)?;
    Ok(())
}

// Appends a bit to the list in the words.
pub(super) fn add_bit<A: Allocator + Copy>(
    words: &mut Vec<u64, A>,
    len: usize,
    bit: bool,
) -> Result<(), GrowError> {
    let used = len % 64;
    if used == 0 {
        if len >= MAX_LEN {
            return Err(GrowError::TooLong);
        }
        if words.push(bit as u64).is_err() {
            return Err(GrowError::Memory);
        }
        return Ok(());
    }
    if bit {
        words[len / 64] |= 1 << used;
        return Ok(());
    }
    Ok(())
}

// Truncates the words to those of the first `len` bits, with zeros past them.
pub(super) fn cut<A: Allocator + Copy>(words: &mut Vec<u64, A>, len: usize) {
    words.truncate(len.div_ceil(64));
    let used = len % 64;
    if used == 0 {
        return;
    }
    let last = words[len / 64];
    words[len / 64] = low_part(last, used);
}

// Sets the bit at `position` to `bit`.
pub(super) fn put_bit<A: Allocator + Copy>(words: &mut Vec<u64, A>, position: usize, bit: bool) {
    let mask = 1 << (position % 64);
    if bit {
        words[position / 64] |= mask;
        return;
    }
    words[position / 64] &= !mask;
}

// Flips the bit at `position`.
pub(super) fn flip<A: Allocator + Copy>(words: &mut Vec<u64, A>, position: usize) {
    words[position / 64] ^= 1 << (position % 64);
}
