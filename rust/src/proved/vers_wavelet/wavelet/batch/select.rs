//! The positions of many occurrences.

use crate::rattle::prelude::*;

use crate::proved::vers_wavelet::wavelet::WaveletMatrix;
use crate::proved::vers_wavelet::wavelet::batch::group::{GROUP, Group};
use crate::proved::vers_wavelet::wavelet::batch::{Query, ask_each};
use crate::proved::vers_wavelet::wavelet::digits::Digits;
use crate::proved::vers_wavelet::wavelet::level::{is_of_bit, next_position};
use crate::rattle::Allocator;
use crate::proved::vers_rank::fast_rs_vec::RsVec;
use crate::proved::vers_tally::tally::Tally;

/// A symbol, the number of one of its occurrences, and the answer, its position.
#[derive(Clone, Copy)]
pub struct SelectQuery {
    /// The number of the occurrence (from 0).
    pub rank: usize,
    /// The symbol. Only its low bits are used.
    pub symbol: u64,
    /// The position of the occurrence, once the query is answered.
    pub answer: Option<usize>,
}

impl SelectQuery {
    /// Returns a query for the position of occurrence `rank` (from 0) of a symbol.
    #[inline]
    pub fn new(rank: usize, symbol: u64) -> Self {
        SelectQuery {
            rank,
            symbol,
            answer: None,
        }
    }

    // Returns the query with the position of the occurrence below the last level, from that of the first one
    // that may be.
    #[inline(always)]
    fn turn(self, len: usize) -> Self {
        let first = match self.answer { Some(first) => first, _ => {
            return self;
        } };
        if self.rank >= len.saturating_sub(first) {
            return SelectQuery {
                rank: self.rank,
                symbol: self.symbol,
                answer: None,
            };
        }
        SelectQuery {
            rank: self.rank,
            symbol: self.symbol,
            answer: Some(first + self.rank),
        }
    }

    // Returns the number of the query's position among the zeros or the ones of the level above.
    #[inline(always)]
    pub(super) fn number_above<A: Allocator + Copy>(self, level: &RsVec<A>, bit: bool) -> usize {
        let position = match self.answer { Some(position) => position, _ => {
            return 0;
        } };
        if bit {
            position.saturating_sub(level.zeros())
        } else {
            position
        }
    }

    // Returns the query one level up, on level `k`, from the position of its number there. If the position of
    // another symbol was reached, there is no answer.
    #[inline(always)]
    fn rise<A: Allocator + Copy>(
        self,
        levels: &[RsVec<A>],
        len: usize,
        k: usize,
        above: usize,
    ) -> Self {
        let position = match self.answer { Some(position) => position, _ => {
            return self;
        } };
        let bit = self.symbol.digit(levels.len() - (k + 1));
        if !is_of_bit(&levels[k], bit, position) {
            return SelectQuery {
                rank: self.rank,
                symbol: self.symbol,
                answer: None,
            };
        }
        SelectQuery {
            rank: self.rank,
            symbol: self.symbol,
            answer: Some(above),
        }
    }
}

impl Query for SelectQuery {
    #[inline(always)]
    fn begin(self, levels: usize, len: usize) -> Self {
        SelectQuery {
            rank: self.rank,
            symbol: self.symbol,
            answer: if levels <= 64 { Some(0) } else { None },
        }
    }

    #[inline(always)]
    fn step<A: Allocator + Copy>(self, level: &RsVec<A>, i: usize, tally: &mut Tally) -> Self {
        let position = match self.answer { Some(position) => position, _ => {
            return self;
        } };
        let bit = self.symbol.digit(i);
        SelectQuery {
            rank: self.rank,
            symbol: self.symbol,
            answer: Some(next_position(level, bit, position, tally)),
        }
    }
}

// Moves each query to the position of its occurrence below the last level.
#[inline(always)]
fn turn_each(queries: &mut [SelectQuery], len: usize) {
    for j in 0..queries.len() {
        queries[j] = queries[j].turn(len);
    }
}

// Moves `n` queries one level up, to level `k`, from query `from` on.
#[inline(always)]
fn rise_group<A: Allocator + Copy>(
    levels: &[RsVec<A>],
    len: usize,
    k: usize,
    queries: &mut [SelectQuery],
    from: usize,
    n: usize,
    tally: &mut Tally,
) {
    let i = levels.len() - (k + 1);
    let level = &levels[k];
    let mut group = Group::new(level, i, queries, from, n);
    group.find_all(n, level, tally);
    for j in 0..n {
        let query = queries[from + j];
        let above = group.found(j, query.symbol.digit(i));
        queries[from + j] = query.rise(levels, len, k, above);
    }
}

// Moves the queries one level up, to level `k`, group by group.
#[inline(always)]
fn rise_each<A: Allocator + Copy>(
    levels: &[RsVec<A>],
    len: usize,
    k: usize,
    queries: &mut [SelectQuery],
    tally: &mut Tally,
) {
    let many = queries.len();
    let mut from = 0;
    while from < many {
        let n = GROUP.min(many - from);
        rise_group(levels, len, k, queries, from, n, tally);
        from += n;
    }
}

// Moves the queries up through all levels, from the positions where the occurrences of their symbols begin
// below the last.
#[inline(always)]
fn climb_each<A: Allocator + Copy>(
    levels: &[RsVec<A>],
    len: usize,
    queries: &mut [SelectQuery],
    tally: &mut Tally,
) {
    turn_each(queries, len);
    for i in 0..levels.len() {
        rise_each(levels, len, levels.len() - (i + 1), queries, tally);
    }
}

impl<A: Allocator + Copy> WaveletMatrix<A> {
    /// Answers each query as `select_u64` does. Allocates nothing. All queries go level by level, which is
    /// faster than one after another if there are many.
    pub fn select_u64_each(&self, queries: &mut [SelectQuery]) {
        let mut tally = Tally::new();
        self.select_u64_each_counted(queries, &mut tally)
    }

    /// Answers each query as `select_u64_each` does. Reads at most what `select_u64` does for each query.
    #[inline(always)]
    pub fn select_u64_each_counted(&self, queries: &mut [SelectQuery], tally: &mut Tally) {
        let levels = self.levels();
        let len = self.len();
        ask_each(levels, len, queries, tally);
        if levels.len() > 64 {
            return;
        }
        climb_each(levels, len, queries, tally);
    }
}
