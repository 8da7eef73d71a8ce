//! Lists of numbers, saved unchanged, each as a word, and ascending ones by their parts.

use crate::rattle::prelude::*;

use crate::proved::vers_saved::form::{Shape, taken};
use crate::proved::vers_saved::kind::{BLOCK_VALUES, GREATEST_WORDS, Kind, SORTED_LISTS, TABLE_VALUES};
use crate::proved::vers_saved::parts::{copy_list, count_list, list_in, list_word};
use crate::proved::vers_saved::saved::{Loaded, Saved};
use crate::rattle::AllocError;
use crate::rattle::Allocator;
use crate::proved::vers_rmq::rmq::binary_rmq::BinaryRmq;
use crate::proved::vers_rmq::rmq::fast_rmq::FastRmq;
use crate::proved::vers_sorted::elias_fano::{EliasFanoRefIter, EliasFanoVec};

// Returns the shape of `count` words, one for each item.
pub(crate) fn words_shape(count: usize) -> Shape {
    Shape { count, width: 64 }
}

// Shows that all items of a slice are words.
pub(crate) fn are_words(items: &[u64]) {}

// Skips the first `n` elements that a walk has left.
#[inline(always)]
fn drop_first<A: Allocator + Copy>(elements: &mut EliasFanoRefIter<'_, A>, n: usize) {
    if n > 0 {
        elements.nth(n - 1);
    }
}

// Returns the number that a walk returned, or if it returned none, that at a position of the others, which come
// after `count`.
#[inline(always)]
fn given_or(given: Option<u64>, others: &[u64], position: usize, count: usize) -> u64 {
    match given {
        Some(number) => number,
        None => others[position - count],
    }
}

// Copies the elements that a walk has left, and then other numbers, from a position on.
pub(crate) fn copy_elements<A: Allocator + Copy>(
    mut elements: EliasFanoRefIter<'_, A>,
    others: &[u64],
    from: usize,
    out: &mut [u64],
) {
    let count = elements.len();
    drop_first(&mut elements, from);
    for k in 0..out.len() {
        out[k] = given_or(elements.next(), others, from + k, count);
    }
}

impl<A: Allocator + Copy> Saved for EliasFanoVec<A> {
    type Prepared = ();

    fn kind() -> Kind {
        SORTED_LISTS
    }

    fn shape(&self) -> Option<Shape> {
        let count = count_list(self);
        if count as u64 > GREATEST_WORDS {
            return None;
        }
        Some(words_shape(count))
    }

    #[inline]
    fn word(&self, k: usize) -> u64 {
        list_word(self, k)
    }

    #[inline]
    fn copy_words(&self, from: usize, out: &mut [u64]) {
        copy_list(self, from, out)
    }

    fn prepare(&self) {}
}

impl<A: Allocator + Copy> Loaded<A> for EliasFanoVec<A> {
    fn make(of: Shape, held: &mut Vec<u64, A>) -> Result<Self, AllocError> {
        let alloc = *held.allocator();
        list_in(alloc, held.as_slice())
    }

    fn make_packed(of: Shape, held: &mut Vec<u64, A>) -> Result<Self, AllocError> {
        let alloc = *held.allocator();
        EliasFanoVec::from_slice(alloc, held.as_slice())
    }
}

impl<A: Allocator + Copy> Saved for BinaryRmq<A> {
    type Prepared = ();

    fn kind() -> Kind {
        TABLE_VALUES
    }

    fn shape(&self) -> Option<Shape> {
        are_words(self.as_slice());
        Some(words_shape(self.len()))
    }

    #[inline]
    fn word(&self, k: usize) -> u64 {
        self.item(k)
    }

    fn prepare(&self) {}
}

impl<A: Allocator + Copy> Loaded<A> for BinaryRmq<A> {
    fn make(of: Shape, held: &mut Vec<u64, A>) -> Result<Self, AllocError> {
        BinaryRmq::from_vec(taken(held))
    }
}

impl<A: Allocator + Copy> Saved for FastRmq<A> {
    type Prepared = ();

    fn kind() -> Kind {
        BLOCK_VALUES
    }

    fn shape(&self) -> Option<Shape> {
        are_words(self.as_slice());
        Some(words_shape(self.len()))
    }

    #[inline]
    fn word(&self, k: usize) -> u64 {
        self.as_slice()[k]
    }

    fn prepare(&self) {}
}

impl<A: Allocator + Copy> Loaded<A> for FastRmq<A> {
    fn make(of: Shape, held: &mut Vec<u64, A>) -> Result<Self, AllocError> {
        FastRmq::from_vec(taken(held))
    }
}
