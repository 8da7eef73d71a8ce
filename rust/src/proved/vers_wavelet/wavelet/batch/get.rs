//! The symbols at many positions.

use crate::rattle::prelude::*;

use crate::proved::vers_wavelet::wavelet::WaveletMatrix;
use crate::proved::vers_wavelet::wavelet::batch::{Query, ask_each};
use crate::proved::vers_wavelet::wavelet::digits::Digits;
use crate::proved::vers_wavelet::wavelet::level::read_level;
use crate::rattle::Allocator;
use crate::proved::vers_rank::fast_rs_vec::RsVec;
use crate::proved::vers_tally::tally::Tally;

/// A position and the answer, its symbol.
#[derive(Clone, Copy)]
pub struct GetQuery {
    /// The position. Answering overwrites it.
    pub position: usize,
    /// The symbol at the position, once the query is answered.
    pub answer: Option<u64>,
}

impl GetQuery {
    /// Returns a query for the symbol at `position`.
    #[inline]
    pub fn new(position: usize) -> Self {
        GetQuery {
            position,
            answer: None,
        }
    }
}

impl Query for GetQuery {
    #[inline(always)]
    fn begin(self, levels: usize, len: usize) -> Self {
        let is_known = levels <= 64 && self.position < len;
        GetQuery {
            position: self.position,
            answer: if is_known { Some(0) } else { None },
        }
    }

    #[inline(always)]
    fn step<A: Allocator + Copy>(self, level: &RsVec<A>, i: usize, tally: &mut Tally) -> Self {
        let mut number = match self.answer { Some(number) => number, _ => {
            return self;
        } };
        let step = read_level(level, self.position, tally);
        number.put_digit(i, step.bit);
        GetQuery {
            position: step.position,
            answer: Some(number),
        }
    }
}

impl<A: Allocator + Copy> WaveletMatrix<A> {
    /// Answers each query as `get_u64` does. Allocates nothing. All queries go level by level, which is faster
    /// than one after another if there are many.
    pub fn get_u64_each(&self, queries: &mut [GetQuery]) {
        let mut tally = Tally::new();
        self.get_u64_each_counted(queries, &mut tally)
    }

    /// Answers each query as `get_u64_each` does. Reads at most what `get_u64` does for each query.
    #[inline(always)]
    pub fn get_u64_each_counted(&self, queries: &mut [GetQuery], tally: &mut Tally) {
        ask_each(self.levels(), self.len(), queries, tally);
    }
}
