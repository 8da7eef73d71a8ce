//! Ranks of symbols, for many queries.

use crate::rattle::prelude::*;

use crate::proved::vers_wavelet::wavelet::WaveletMatrix;
use crate::proved::vers_wavelet::wavelet::batch::{Query, ask_each};
use crate::proved::vers_wavelet::wavelet::digits::Digits;
use crate::proved::vers_wavelet::wavelet::level::next_position;
use crate::rattle::Allocator;
use crate::proved::vers_rank::fast_rs_vec::RsVec;
use crate::proved::vers_tally::tally::Tally;

/// A length of a prefix, a symbol to be counted in it, and the answer.
#[derive(Clone, Copy)]
pub struct RankQuery {
    /// The length of the prefix. Answering overwrites it.
    pub end: usize,
    /// The symbol. Only its low bits are used.
    pub symbol: u64,
    /// The number of occurrences of the symbol in the prefix, once the query is answered.
    pub answer: Option<usize>,
}

impl RankQuery {
    /// Returns a query for the number of occurrences of a symbol in the first `end` positions.
    #[inline]
    pub fn new(end: usize, symbol: u64) -> Self {
        RankQuery {
            end,
            symbol,
            answer: None,
        }
    }
}

impl Query for RankQuery {
    #[inline(always)]
    fn begin(self, levels: usize, len: usize) -> Self {
        let is_known = levels <= 64 && self.end <= len;
        RankQuery {
            end: self.end,
            symbol: self.symbol,
            answer: if is_known { Some(self.end) } else { None },
        }
    }

    // If no position is left, the level is not read.
    #[inline(always)]
    fn step<A: Allocator + Copy>(self, level: &RsVec<A>, i: usize, tally: &mut Tally) -> Self {
        let count = match self.answer { Some(count) => count, _ => {
            return self;
        } };
        if count == 0 {
            return self;
        }
        let bit = self.symbol.digit(i);
        let start = next_position(level, bit, self.end - count, tally);
        let end = next_position(level, bit, self.end, tally);
        RankQuery {
            end,
            symbol: self.symbol,
            answer: Some(end - start),
        }
    }
}

impl<A: Allocator + Copy> WaveletMatrix<A> {
    /// Answers each query as `rank_u64` does. Allocates nothing. All queries go level by level, which is faster
    /// than one after another if there are many.
    pub fn rank_u64_each(&self, queries: &mut [RankQuery]) {
        let mut tally = Tally::new();
        self.rank_u64_each_counted(queries, &mut tally)
    }

    /// Answers each query as `rank_u64_each` does. Reads at most what `rank_u64` does for each query.
    #[inline(always)]
    pub fn rank_u64_each_counted(&self, queries: &mut [RankQuery], tally: &mut Tally) {
        ask_each(self.levels(), self.len(), queries, tally);
    }
}
