//! Quantiles of many ranges.

use crate::rattle::prelude::*;

use crate::proved::vers_wavelet::wavelet::WaveletMatrix;
use crate::proved::vers_wavelet::wavelet::batch::{Query, ask_each};
use crate::proved::vers_wavelet::wavelet::digits::Digits;
use crate::proved::vers_wavelet::wavelet::level::{Choice, choose_level};
use crate::rattle::Allocator;
use crate::proved::vers_rank::fast_rs_vec::RsVec;
use crate::proved::vers_tally::tally::Tally;

/// A range, the rank of one of its elements by size, and the answer, that element.
#[derive(Clone, Copy)]
pub struct QuantileQuery {
    /// The first position of the range. Answering overwrites it, `end` and `i`.
    pub start: usize,
    /// The position after the range.
    pub end: usize,
    /// The rank of the element by size (from 0, counting duplicates).
    pub i: usize,
    /// The element, once the query is answered.
    pub answer: Option<u64>,
}

impl QuantileQuery {
    /// Returns a query for the `i`-th smallest symbol of the positions from `start` on, before `end`.
    #[inline]
    pub fn new(start: usize, end: usize, i: usize) -> Self {
        QuantileQuery {
            start,
            end,
            i,
            answer: None,
        }
    }

    // Returns true if there is such an element, and it fits in a word.
    #[inline(always)]
    fn has_answer(self, levels: usize, len: usize) -> bool {
        levels <= 64 && self.end <= len && self.i < self.end.saturating_sub(self.start)
    }
}

impl Query for QuantileQuery {
    #[inline(always)]
    fn begin(self, levels: usize, len: usize) -> Self {
        QuantileQuery {
            start: self.start,
            end: self.end,
            i: self.i,
            answer: if self.has_answer(levels, len) {
                Some(0)
            } else {
                None
            },
        }
    }

    #[inline(always)]
    fn step<A: Allocator + Copy>(self, level: &RsVec<A>, i: usize, tally: &mut Tally) -> Self {
        let mut number = match self.answer { Some(number) => number, _ => {
            return self;
        } };
        let from = Choice {
            start: self.start,
            end: self.end,
            left: self.i,
            bit: false,
        };
        let choice = choose_level(level, from, tally);
        number.put_digit(i, choice.bit);
        QuantileQuery {
            start: choice.start,
            end: choice.end,
            i: choice.left,
            answer: Some(number),
        }
    }
}

impl<A: Allocator + Copy> WaveletMatrix<A> {
    /// Answers each query as `quantile_u64` does. Allocates nothing. All queries go level by level, which is
    /// faster than one after another if there are many.
    pub fn quantile_u64_each(&self, queries: &mut [QuantileQuery]) {
        let mut tally = Tally::new();
        self.quantile_u64_each_counted(queries, &mut tally)
    }

    /// Answers each query as `quantile_u64_each` does. Reads at most what `quantile_u64` does for each query.
    #[inline(always)]
    pub fn quantile_u64_each_counted(&self, queries: &mut [QuantileQuery], tally: &mut Tally) {
        ask_each(self.levels(), self.len(), queries, tally);
    }
}
