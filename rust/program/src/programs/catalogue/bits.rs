//! Queries of lists of bits.

use crate::rattle::prelude::*;

use crate::programs::catalogue::answer::Answer;
use crate::programs::catalogue::query::Query;
use crate::programs::catalogue::queryable::Queryable;
use crate::rattle::Allocator;
use crate::proved::vers_bits::bit_vec::BitVec;
use crate::proved::vers_rank::fast_rs_vec::RsVec;

impl<A: Allocator + Copy> Queryable for BitVec<A> {
    #[inline(always)]
    fn answer(&self, query: Query, a: u64, b: u64, c: u64) -> Answer {
        match query {
            Query::Len => Answer::position(self.len()),
            Query::Get => Answer::number_or_absent(self.get(a as usize)),
            Query::GetBits => Answer::number_or_absent(self.get_bits(a as usize, b as usize)),
            Query::HeapSize => Answer::position(self.heap_size()),
            _ => Answer::Unknown,
        }
    }
}

impl<A: Allocator + Copy> Queryable for RsVec<A> {
    #[inline(always)]
    fn answer(&self, query: Query, a: u64, b: u64, c: u64) -> Answer {
        match query {
            Query::Len => Answer::position(self.len()),
            Query::Get => Answer::number_or_absent(self.get(a as usize)),
            Query::GetBits => Answer::number_or_absent(self.get_bits(a as usize, b as usize)),
            Query::HeapSize => Answer::position(self.heap_size()),
            Query::Rank0 => Answer::position(self.rank0(a as usize)),
            Query::Rank1 => Answer::position(self.rank1(a as usize)),
            Query::Select0 => Answer::position(self.select0(a as usize)),
            Query::Select1 => Answer::position(self.select1(a as usize)),
            _ => Answer::Unknown,
        }
    }
}
