//! Queries that go up one level together: those of zeros, and those of ones.

use crate::rattle::prelude::*;

use crate::proved::vers_wavelet::wavelet::batch::select::SelectQuery;
use crate::proved::vers_wavelet::wavelet::digits::Digits;
use crate::rattle::Allocator;
use crate::proved::vers_rank::fast_rs_vec::RsVec;
use crate::proved::vers_tally::tally::Tally;

/// The queries that search a level together: enough that the processor has their reads in flight at once.
pub(super) const GROUP: usize = 64;

// Numbers of the zeros of a level or of its ones, the first `count` of them, or their positions.
#[derive(Clone, Copy)]
pub(super) struct Asked {
    pub(super) numbers: [usize; GROUP],
    pub(super) count: usize,
}

impl Asked {
    // Appends a number if `is_wanted`, with no branch, which would be mispredicted.
    #[inline(always)]
    fn append_if(&mut self, number: usize, is_wanted: bool) {
        self.numbers[self.count] = number;
        self.count += if is_wanted { 1 } else { 0 };
    }

    // Replaces each number by the position of that zero or one.
    #[inline(always)]
    fn find_each<A: Allocator + Copy>(&mut self, bit: bool, level: &RsVec<A>, tally: &mut Tally) {
        let numbers = &mut self.numbers[..self.count];
        if bit {
            level.select1_each_counted(numbers, tally);
        } else {
            level.select0_each_counted(numbers, tally);
        }
    }
}

// The numbers that the queries of a group search on a level, and for each query the index of its own.
#[derive(Clone, Copy)]
pub(super) struct Group {
    pub(super) slots: [usize; GROUP],
    pub(super) zeros: Asked,
    pub(super) ones: Asked,
}

impl Group {
    // Returns the numbers that `n` queries, from query `from` on, search on a level, of which they have digit
    // `i`.
    #[inline(always)]
    pub(super) fn new<A: Allocator + Copy>(
        level: &RsVec<A>,
        i: usize,
        queries: &[SelectQuery],
        from: usize,
        n: usize,
    ) -> Self {
        let none = Asked {
            numbers: [0; GROUP],
            count: 0,
        };
        let mut group = Group {
            slots: [0; GROUP],
            zeros: none,
            ones: none,
        };
        for j in 0..n {
            let query = queries[from + j];
            let bit = query.symbol.digit(i);
            group.append_number(j, bit, query.number_above(level, bit));
        }
        group
    }

    // Returns the number of queries for ones, or for zeros.
    #[inline(always)]
    fn next_slot(&self, bit: bool) -> usize {
        if bit {
            self.ones.count
        } else {
            self.zeros.count
        }
    }

    // Appends the number of query `j`.
    #[inline(always)]
    fn append_number(&mut self, j: usize, bit: bool, number: usize) {
        self.slots[j] = self.next_slot(bit);
        self.zeros.append_if(number, !bit);
        self.ones.append_if(number, bit);
    }

    // Finds all positions.
    #[inline(always)]
    pub(super) fn find_all<A: Allocator + Copy>(
        &mut self,
        n: usize,
        level: &RsVec<A>,
        tally: &mut Tally,
    ) {
        self.zeros.find_each(false, level, tally);
        self.ones.find_each(true, level, tally);
    }

    // Returns the position found for query `j`.
    #[inline(always)]
    pub(super) fn found(&self, j: usize, bit: bool) -> usize {
        let slot = self.slots[j];
        if bit {
            self.ones.numbers[slot]
        } else {
            self.zeros.numbers[slot]
        }
    }
}
