//! Predecessors and successors of many numbers at once.

use crate::rattle::prelude::*;

use super::EliasFanoVec;
use super::batch::GROUP;
use crate::rattle::Allocator;
use crate::proved::vers_tally::tally::Tally;

// A side of a number, on which an element is searched.
pub(super) trait Side {
    // Returns that number, if it fits in 64 bits.
    fn limit(v: u64) -> u64;

    // Returns that element, from the first results of the search.
    fn begun<A: Allocator + Copy>(
        list: &EliasFanoVec<A>,
        v: u64,
        before: usize,
        after: usize,
        part: u64,
        tally: &mut Tally,
    ) -> Option<u64>;
}

// The greatest element that is at most a number.
pub(super) struct Before;

impl Side for Before {
    #[inline(always)]
    fn limit(v: u64) -> u64 {
        v.saturating_add(1)
    }

    #[inline(always)]
    fn begun<A: Allocator + Copy>(
        list: &EliasFanoVec<A>,
        v: u64,
        before: usize,
        after: usize,
        part: u64,
        tally: &mut Tally,
    ) -> Option<u64> {
        list.predecessor_begun(v, before, after, part, tally)
    }
}

// The least element that is at least a number.
pub(super) struct After;

impl Side for After {
    #[inline(always)]
    fn limit(v: u64) -> u64 {
        v
    }

    #[inline(always)]
    fn begun<A: Allocator + Copy>(
        list: &EliasFanoVec<A>,
        v: u64,
        before: usize,
        after: usize,
        part: u64,
        tally: &mut Tally,
    ) -> Option<u64> {
        list.successor_begun(v, before, after, part, tally)
    }
}

// Computes for each of `n` values the number below which elements are counted.
#[inline(always)]
fn bounds_each<S: Side>(values: &[Option<u64>], from: usize, n: usize, asked: &mut [u64; GROUP]) {
    for j in 0..n {
        asked[j] = S::limit(values[from + j].unwrap_or(0));
    }
}

impl<A: Allocator + Copy> EliasFanoVec<A> {
    /// Replaces each `Some(v)` in `values` by `predecessor(v)`; each `None` stays. Allocates nothing.
    pub fn predecessor_each(&self, values: &mut [Option<u64>]) {
        let mut tally = Tally::new();
        self.predecessor_each_counted(values, &mut tally)
    }

    /// Does what `predecessor_each` does. Reads at most what as many calls of `predecessor` do.
    #[inline(always)]
    pub fn predecessor_each_counted(&self, values: &mut [Option<u64>], tally: &mut Tally) {
        let _ = self.len();
        self.neighbour_each::<Before>(values, tally)
    }

    /// Replaces each `Some(v)` in `values` by `successor(v)`; each `None` stays. Allocates nothing.
    pub fn successor_each(&self, values: &mut [Option<u64>]) {
        let mut tally = Tally::new();
        self.successor_each_counted(values, &mut tally)
    }

    /// Does what `successor_each` does. Reads at most what as many calls of `successor` do.
    #[inline(always)]
    pub fn successor_each_counted(&self, values: &mut [Option<u64>], tally: &mut Tally) {
        let _ = self.len();
        self.neighbour_each::<After>(values, tally)
    }

    // Replaces each number by its neighbour on one side, group by group.
    #[inline(always)]
    fn neighbour_each<S: Side>(&self, values: &mut [Option<u64>], tally: &mut Tally) {
        let len = values.len();
        let mut from = 0;
        while from < len {
            let n = GROUP.min(len - from);
            self.neighbour_group::<S>(values, from, n, tally);
            from += n;
        }
    }

    // Does the same for `n` numbers: the first steps of all searches, and then the rest of each.
    #[inline(always)]
    fn neighbour_group<S: Side>(
        &self,
        values: &mut [Option<u64>],
        from: usize,
        n: usize,
        tally: &mut Tally,
    ) {
        let _ = &self.len;
        let mut asked = [0; GROUP];
        let mut before = [0; GROUP];
        let mut after = [0; GROUP];
        let mut parts = [0; GROUP];
        bounds_each::<S>(values, from, n, &mut asked);
        self.begin_each::<S>(&asked[..n], &mut before, &mut after, &mut parts, tally);
        self.neighbours_each::<S>(values, from, n, &before, &after, &parts, tally);
    }

    // Does the same, from the first results of the searches.
    #[inline(always)]
    fn neighbours_each<S: Side>(
        &self,
        values: &mut [Option<u64>],
        from: usize,
        n: usize,
        before: &[usize; GROUP],
        after: &[usize; GROUP],
        parts: &[u64; GROUP],
        tally: &mut Tally,
    ) {
        for j in 0..n {
            values[from + j] = self.neighbour::<S>(
                values[from + j],
                before[j],
                after[j],
                parts[j],
                tally,
            );
        }
    }

    // Returns the neighbour of a number, from the first results of the search.
    #[inline(always)]
    fn neighbour<S: Side>(
        &self,
        value: Option<u64>,
        before: usize,
        after: usize,
        part: u64,
        tally: &mut Tally,
    ) -> Option<u64> {
        let v = match value { Some(v) => v, _ => {
            return None;
        } };
        S::begun(self, v, before, after, part, tally)
    }

    // Returns the predecessor of a number, from the first results of the search.
    #[inline(always)]
    fn predecessor_begun(
        &self,
        v: u64,
        before: usize,
        after: usize,
        part: u64,
        tally: &mut Tally,
    ) -> Option<u64> {
        let _ = self.len();
        let _ = self.last();
        if !self.is_inside_after(v) {
            return self.predecessor_outside(v);
        }
        let bucket = self.bucket_between(v + 1, before, after);
        let k = self.below_from(bucket, part, v + 1, tally);
        Some(self.last_below(bucket, v + 1, k, tally))
    }

    // Returns the successor of a number, from the first results of the search.
    #[inline(always)]
    fn successor_begun(
        &self,
        v: u64,
        before: usize,
        after: usize,
        part: u64,
        tally: &mut Tally,
    ) -> Option<u64> {
        let _ = self.len();
        if !self.is_inside(v) {
            return self.successor_outside(v);
        }
        let bucket = self.bucket_between(v, before, after);
        let k = self.below_from(bucket, part, v, tally);
        Some(self.first_from(bucket, v, k, tally))
    }
}
