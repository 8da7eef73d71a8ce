//! Inverted indexes, saved by the number of terms, the limit of documents and the parts of the list of all numbers.

use crate::rattle::prelude::*;

use crate::proved::vers_saved::form::Shape;
use crate::proved::vers_saved::kind::{GREATEST_WORDS, INVERTED_LISTS, Kind};
use crate::proved::vers_saved::numbers::words_shape;
use crate::proved::vers_saved::parts::{Cut, ENDS, are_of_list, copy_list, count_list, list_in, list_word};
use crate::proved::vers_saved::saved::{Loaded, Saved};
use crate::proved::vers_saved::words::Words;
use crate::proved::inverted::InvertedIndex;
use crate::rattle::AllocError;
use crate::rattle::Allocator;
use crate::proved::vers_sorted::elias_fano::EliasFanoVec;

// The number of words before those of the list: the number of terms and the limit of documents.
const LIMITS: usize = 2;

// Returns true if `n` words from word `from` on are those of an inverted index.
pub(crate) fn are_of_inverted<W: Words>(words: &W, from: usize, n: usize) -> bool {
    if n < LIMITS + ENDS {
        return false;
    }
    let end = match words.word(from).checked_mul(words.word(from + 1)) { Some(end) => end, _ => {
        return false;
    } };
    let (from, n) = (from + LIMITS, n - LIMITS);
    if !are_of_list(&Cut::new(words, from, n), n, true) {
        return false;
    }
    let (count, last) = (words.word(from), words.word(from + 2));
    count == 0 || last < end
}

// Returns the index of these numbers, of which there is one.
fn index_of<A: Allocator + Copy>(
    terms: u64,
    universe: u64,
    numbers: EliasFanoVec<A>,
) -> InvertedIndex<A> {
    InvertedIndex::from_numbers(terms, universe, numbers).unwrap()
}

impl<A: Allocator + Copy> Saved for InvertedIndex<A> {
    type Prepared = ();

    fn kind() -> Kind {
        INVERTED_LISTS
    }

    fn shape(&self) -> Option<Shape> {
        let count = count_list(self.pair_numbers()) + LIMITS;
        if count as u64 > GREATEST_WORDS {
            return None;
        }
        Some(words_shape(count))
    }

    #[inline]
    fn word(&self, k: usize) -> u64 {
        if k == 0 {
            return self.terms();
        }
        if k == 1 {
            return self.universe();
        }
        list_word(self.pair_numbers(), k - LIMITS)
    }

    #[inline]
    fn copy_words(&self, from: usize, out: &mut [u64]) {
        if from >= LIMITS {
            return copy_list(self.pair_numbers(), from - LIMITS, out);
        }
        for k in 0..out.len() {
            out[k] = self.word(from + k);
        }
    }

    fn prepare(&self) {}
}

impl<A: Allocator + Copy> Loaded<A> for InvertedIndex<A> {
    fn make(of: Shape, held: &mut Vec<u64, A>) -> Result<Self, AllocError> {
        let alloc = *held.allocator();
        let words = held.as_slice();
        let numbers = list_in(alloc, &words[LIMITS..])?;
        Ok(index_of(words[0], words[1], numbers))
    }
}
