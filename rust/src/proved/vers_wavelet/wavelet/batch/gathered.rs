//! Positions of symbols in gathered order, for many queries.

use crate::rattle::prelude::*;

use crate::proved::vers_wavelet::wavelet::WaveletMatrix;
use crate::proved::vers_wavelet::wavelet::batch::{Query, ask_each};
use crate::proved::vers_wavelet::wavelet::digits::Digits;
use crate::proved::vers_wavelet::wavelet::level::next_position;
use crate::rattle::Allocator;
use crate::proved::vers_rank::fast_rs_vec::RsVec;
use crate::proved::vers_tally::tally::Tally;

/// A position, a symbol to be found from there on, and the answer.
#[derive(Clone, Copy)]
pub struct GatheredQuery {
    /// The position.
    pub position: usize,
    /// The symbol. Only its low bits are used.
    pub symbol: u64,
    /// The gathered position of the first such symbol from the position on, once the query is answered.
    pub answer: Option<usize>,
}

impl GatheredQuery {
    /// Returns a query for the gathered position of the first of a symbol from `position` on.
    #[inline]
    pub fn new(position: usize, symbol: u64) -> Self {
        GatheredQuery {
            position,
            symbol,
            answer: None,
        }
    }
}

impl Query for GatheredQuery {
    #[inline(always)]
    fn begin(self, levels: usize, len: usize) -> Self {
        let is_known = levels <= 64 && self.position <= len;
        GatheredQuery {
            position: self.position,
            symbol: self.symbol,
            answer: if is_known { Some(self.position) } else { None },
        }
    }

    #[inline(always)]
    fn step<A: Allocator + Copy>(self, level: &RsVec<A>, i: usize, tally: &mut Tally) -> Self {
        let position = match self.answer { Some(position) => position, _ => {
            return self;
        } };
        let bit = self.symbol.digit(i);
        GatheredQuery {
            position: self.position,
            symbol: self.symbol,
            answer: Some(next_position(level, bit, position, tally)),
        }
    }
}

impl<A: Allocator + Copy> WaveletMatrix<A> {
    /// Answers each query as `gathered_u64` does. Allocates nothing. All queries go level by level, which is
    /// faster than one after another if there are many.
    pub fn gathered_u64_each(&self, queries: &mut [GatheredQuery]) {
        let mut tally = Tally::new();
        self.gathered_u64_each_counted(queries, &mut tally)
    }

    /// Answers each query as `gathered_u64_each` does. Reads at most two ranks of each level for each query.
    #[inline(always)]
    pub fn gathered_u64_each_counted(&self, queries: &mut [GatheredQuery], tally: &mut Tally) {
        ask_each(self.levels(), self.len(), queries, tally);
    }
}
