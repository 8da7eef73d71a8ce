//! Queries of lists of symbols.

use crate::rattle::prelude::*;

use crate::programs::catalogue::answer::Answer;
use crate::programs::catalogue::query::{Query, SymbolsQuery};
use crate::programs::catalogue::queryable::Queryable;
use crate::rattle::Allocator;
use crate::proved::vers_wavelet::wavelet::WaveletMatrix;

impl<A: Allocator + Copy> Queryable for WaveletMatrix<A> {
    #[inline(always)]
    fn answer(&self, query: Query, a: u64, b: u64, c: u64) -> Answer {
        match query {
            Query::Len => Answer::position(self.len()),
            Query::Width => Answer::position(self.bits_per_element()),
            Query::HeapSize => Answer::position(self.heap_size()),
            Query::Get => Answer::number_or_absent(self.get_u64(a as usize)),
            Query::Symbols(query) => answer_of(self, query, a as usize, b, c),
            _ => Answer::Unknown,
        }
    }
}

// Returns the answer to a query of symbols at positions, or of the positions of symbols.
#[inline(always)]
fn answer_of<A: Allocator + Copy>(
    symbols: &WaveletMatrix<A>,
    query: SymbolsQuery,
    a: usize,
    b: u64,
    c: u64,
) -> Answer {
    let range = a..b as usize;
    match query {
        SymbolsQuery::RankOf => Answer::position_or_absent(symbols.rank_u64(a, b)),
        SymbolsQuery::SelectOf => Answer::position_or_absent(symbols.select_u64(a, b)),
        SymbolsQuery::RankRange => Answer::position_or_absent(symbols.rank_range_u64(range, c)),
        SymbolsQuery::SelectFrom => {
            Answer::position_or_absent(symbols.select_offset_u64(a, b as usize, c))
        }
        SymbolsQuery::Quantile => Answer::number_or_absent(symbols.quantile_u64(range, c as usize)),
        SymbolsQuery::Least => Answer::number_or_absent(symbols.range_min_u64(range)),
        SymbolsQuery::Greatest => Answer::number_or_absent(symbols.range_max_u64(range)),
        SymbolsQuery::Median => Answer::number_or_absent(symbols.range_median_u64(range)),
        SymbolsQuery::Predecessor => Answer::number_or_absent(symbols.predecessor_u64(range, c)),
        SymbolsQuery::Successor => Answer::number_or_absent(symbols.successor_u64(range, c)),
    }
}
