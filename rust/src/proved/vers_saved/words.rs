//! Words of 64 bits, as bytes, and their sum.

use crate::rattle::prelude::*;

use crate::proved::vers_saved::form::HEAD;
use crate::proved::vers_saved::inverted_index::are_of_inverted;
use crate::proved::vers_saved::kind::{Order, Rows};
use crate::proved::vers_saved::parts::{Cut, are_of_list, are_of_sparse};
use crate::proved::vers_saved::{FACTOR, START, TURN};
use crate::rattle::Allocator;

/// The number of words in a head and a sum.
pub(crate) const FRAME: usize = 6;

/// Words, one after another.
pub(crate) trait Words {
    // Returns word `k`.
    fn word(&self, k: usize) -> u64;
}

/// Words as bytes, eight for each.
#[derive(Clone, Copy)]
pub(crate) struct Chunks<'a> {
    pub(crate) chunks: Arrays<'a, u8, 8>,
}

impl<'a> Words for Chunks<'a> {
    #[inline]
    fn word(&self, k: usize) -> u64 {
        word_of(self.chunks[k])
    }
}

impl<A: Allocator> Words for Vec<u64, A> {
    #[inline]
    fn word(&self, k: usize) -> u64 {
        self[k]
    }
}

/// Words in two parts, one after the other.
#[derive(Clone, Copy)]
pub(crate) struct TwoParts<'a> {
    pub(crate) front: &'a [u64],
    pub(crate) rest: &'a [u64],
}

impl<'a> Words for TwoParts<'a> {
    #[inline]
    fn word(&self, k: usize) -> u64 {
        let count = self.front.len();
        if k < count {
            self.front[k]
        } else {
            self.rest[k - count]
        }
    }
}

// Returns a sum with one more word mixed in.
#[inline(always)]
pub(crate) fn mixed(sum: u64, word: u64) -> u64 {
    (sum ^ word).wrapping_mul(FACTOR).rotate_left(TURN)
}

// Returns the word of eight bytes.
#[inline(always)]
pub(crate) fn word_of(bytes: [u8; 8]) -> u64 {
    u64::from_le_bytes(bytes)
}

// Appends the bytes of a word, for which there is room.
#[inline(always)]
pub(crate) fn put_word<A: Allocator>(out: &mut Vec<u8, A>, word: u64) {
    let bytes = word.to_le_bytes();
    out.extend_from_slice(&bytes).unwrap()
}

// Returns the sum of the words before a position.
pub(crate) fn sum_before<W: Words>(end: usize, words: &W) -> u64 {
    let mut sum = START;
    for k in 0..end {
        sum = mixed(sum, words.word(k));
    }
    sum
}

// Copies the `n` words of the content, for which there is room. Returns the sum of the words before that of the
// form.
pub(crate) fn copy_summed<W: Words, A: Allocator>(
    n: usize,
    words: &W,
    kept: &mut Vec<u64, A>,
) -> u64 {
    let mut sum = sum_before(5, words);
    for k in 0..n {
        let word = words.word(k + 5);
        kept.push_reserved(word);
        sum = mixed(sum, word);
    }
    sum
}

// Returns true if the last word of row `k` has only zeros past the bits of the row.
fn row_is_padded<W: Words>(bits: usize, k: usize, words: &W) -> bool {
    let limbs = bits.div_ceil(64);
    bits % 64 == 0 || words.word(k * limbs + limbs + FRAME - 2) < 1 << (bits % 64)
}

// Returns true if the last word of each row has only zeros past the bits of the row.
pub(crate) fn is_padded<W: Words>(rows: Rows, words: &W) -> bool {
    let mut holds = true;
    for k in 0..rows.count {
        holds = holds & row_is_padded(rows.bits, k, words);
    }
    holds
}

// Returns true if a word and the next one are in order.
#[inline(always)]
fn stands(order: Order, before: u64, next: u64) -> bool {
    match order {
        Order::Any | Order::Parts | Order::RisingParts | Order::InvertedParts => true,
        Order::Ascending => before <= next,
        Order::Rising | Order::HalfRising => before < next,
    }
}

// Returns how many of `count` words must be in order.
fn count_ordered(order: Order, count: usize) -> usize {
    match order {
        Order::Any | Order::Parts | Order::RisingParts | Order::InvertedParts => 0,
        Order::Ascending | Order::Rising => count,
        Order::HalfRising => count / 2,
    }
}

// Returns true if the `n` words of the content are in order, or are those of an ascending list or of its parts.
pub(crate) fn is_in_order<W: Words>(order: Order, n: usize, words: &W) -> bool {
    match order {
        Order::Parts => are_of_list(&Cut::new(words, HEAD, n), n, false),
        Order::RisingParts => are_of_sparse(words, HEAD, n),
        Order::InvertedParts => are_of_inverted(words, HEAD, n),
        order => are_in_steps(order, n, words),
    }
}

// Returns true if each of the `n` words of the content is in order with the next one.
fn are_in_steps<W: Words>(order: Order, n: usize, words: &W) -> bool {
    let end = count_ordered(order, n);
    let mut holds = true;
    for k in 0..end.saturating_sub(1) {
        holds = holds & stands(order, words.word(k + 5), words.word(k + 6));
    }
    holds
}
