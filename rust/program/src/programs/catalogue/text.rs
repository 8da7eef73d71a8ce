//! Queries of texts.

use crate::rattle::prelude::*;

use crate::programs::catalogue::answer::Answer;
use crate::programs::catalogue::query::Query;
use crate::programs::catalogue::queryable::Queryable;
use crate::rattle::Allocator;
use crate::proved::text_index::TextIndex;

impl<A: Allocator + Copy> Queryable for TextIndex<A> {
    #[inline(always)]
    fn answer(&self, query: Query, _a: u64, _b: u64, _c: u64) -> Answer {
        match query {
            Query::Len => Answer::position(self.len()),
            Query::Width => Answer::Found(u64::from(self.bits_per_symbol())),
            Query::HeapSize => Answer::position(self.heap_size()),
            Query::Step => Answer::position(self.step()),
            _ => Answer::Unknown,
        }
    }
}
