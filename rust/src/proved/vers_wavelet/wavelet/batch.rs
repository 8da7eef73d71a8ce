//! Many queries at once, all of them level by level.

use crate::rattle::prelude::*;

mod gathered;
mod get;
mod group;
mod quantile;
mod rank;
mod select;

pub use gathered::GatheredQuery;
pub use get::GetQuery;
pub use quantile::QuantileQuery;
pub use rank::RankQuery;
pub use select::SelectQuery;
use crate::rattle::Allocator;
use crate::proved::vers_rank::fast_rs_vec::RsVec;
use crate::proved::vers_tally::tally::Tally;

// A query that is answered level by level, and stores its current position and result.
pub(super) trait Query: Copy {
    // Returns the query before the first of some levels with `len` positions.
    fn begin(self, levels: usize, len: usize) -> Self;

    // Returns the query after one more level, with `i` levels left.
    fn step<A: Allocator + Copy>(self, level: &RsVec<A>, i: usize, tally: &mut Tally) -> Self;
}

// Puts each query before the first level.
#[inline(always)]
fn begin_each<Q: Query>(queries: &mut [Q], levels: usize, len: usize) {
    for j in 0..queries.len() {
        queries[j] = queries[j].begin(levels, len);
    }
}

// Advances each query by one level, with `i` levels left.
#[inline(always)]
fn step_each<A: Allocator + Copy, Q: Query>(
    level: &RsVec<A>,
    i: usize,
    queries: &mut [Q],
    tally: &mut Tally,
) {
    for j in 0..queries.len() {
        queries[j] = queries[j].step(level, i, tally);
    }
}

// Answers all queries, level by level. If the symbols don't fit in a word, no level is read.
#[inline(always)]
pub(super) fn ask_each<A: Allocator + Copy, Q: Query>(
    levels: &[RsVec<A>],
    len: usize,
    queries: &mut [Q],
    tally: &mut Tally,
) {
    begin_each(queries, levels.len(), len);
    if levels.len() > 64 {
        return;
    }
    for k in 0..levels.len() {
        step_each(&levels[k], levels.len() - (k + 1), queries, tally);
    }
}
