//! Queries of lists of bits with few ones.

use crate::rattle::prelude::*;

use crate::programs::catalogue::answer::Answer;
use crate::programs::catalogue::query::Query;
use crate::programs::catalogue::queryable::Queryable;
use crate::rattle::Allocator;
use crate::proved::vers_sorted::sparse::SparseRSVec;

impl<A: Allocator + Copy> Queryable for SparseRSVec<A> {
    #[inline(always)]
    fn answer(&self, query: Query, a: u64, b: u64, c: u64) -> Answer {
        match query {
            Query::Len => Answer::Found(self.len()),
            Query::Get => Answer::number_or_absent(self.get(a)),
            Query::HeapSize => Answer::position(self.heap_size()),
            Query::Rank0 => Answer::Found(self.rank0(a)),
            Query::Rank1 => Answer::Found(self.rank1(a)),
            Query::Select1 => Answer::Found(self.select1(a as usize)),
            _ => Answer::Unknown,
        }
    }
}
