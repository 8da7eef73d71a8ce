//! Lists of bits with few ones, saved by the length and the parts of the positions of the ones.

use crate::rattle::prelude::*;

use crate::proved::vers_saved::form::Shape;
use crate::proved::vers_saved::kind::{GREATEST_WORDS, Kind, SPARSE_LISTS};
use crate::proved::vers_saved::numbers::words_shape;
use crate::proved::vers_saved::parts::{copy_list, count_list, list_in, list_word};
use crate::proved::vers_saved::saved::{Loaded, Saved};
use crate::rattle::AllocError;
use crate::rattle::Allocator;
use crate::proved::vers_sorted::sparse::SparseRSVec;

impl<A: Allocator + Copy> Saved for SparseRSVec<A> {
    type Prepared = ();

    fn kind() -> Kind {
        SPARSE_LISTS
    }

    fn shape(&self) -> Option<Shape> {
        let _ = self.len();
        let count = count_list(self.ones()) + 1;
        if count as u64 > GREATEST_WORDS {
            return None;
        }
        Some(words_shape(count))
    }

    #[inline]
    fn word(&self, k: usize) -> u64 {
        if k == 0 {
            return self.len();
        }
        list_word(self.ones(), k - 1)
    }

    #[inline]
    fn copy_words(&self, from: usize, out: &mut [u64]) {
        if from > 0 {
            return copy_list(self.ones(), from - 1, out);
        }
        for k in 0..out.len() {
            out[k] = self.word(k);
        }
    }

    fn prepare(&self) {}
}

impl<A: Allocator + Copy> Loaded<A> for SparseRSVec<A> {
    fn make(of: Shape, held: &mut Vec<u64, A>) -> Result<Self, AllocError> {
        let alloc = *held.allocator();
        let words = held.as_slice();
        let ones = list_in(alloc, &words[1..])?;
        Ok(SparseRSVec::from_sorted(ones, words[0]))
    }

    fn make_packed(of: Shape, held: &mut Vec<u64, A>) -> Result<Self, AllocError> {
        let alloc = *held.allocator();
        let words = held.as_slice();
        let last = words.len() - 1;
        SparseRSVec::new(alloc, &words[..last], words[last])
    }
}
