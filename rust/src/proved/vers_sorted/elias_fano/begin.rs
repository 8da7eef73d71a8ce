//! The first steps of searches for many numbers, all of them step by step.

use crate::rattle::prelude::*;

use super::EliasFanoVec;
use super::batch::GROUP;
use super::scan::zero_after;
use crate::rattle::Allocator;
use crate::proved::vers_tally::tally::Tally;

impl<A: Allocator + Copy> EliasFanoVec<A> {
    // Returns the high part of a number, or 0 below the first element.
    #[inline(always)]
    fn high_or_zero(&self, v: u64) -> usize {
        let _ = &self.len;
        (v.saturating_sub(self.first) >> self.width) as usize
    }

    // Computes the high parts of numbers.
    #[inline(always)]
    fn high_numbers(&self, asked: &[u64], highs: &mut [usize; GROUP]) {
        for j in 0..asked.len() {
            highs[j] = self.high_or_zero(asked[j]);
        }
    }

    // For each number inside the list, finds the positions of the zeros before and after the elements with its
    // high part, and the low part of the first of these. Each caller names a type of its own, so each has its
    // own copy, which is inlined into it without the counter.
    #[inline(always)]
    pub(super) fn begin_each<Caller>(
        &self,
        asked: &[u64],
        before: &mut [usize; GROUP],
        after: &mut [usize; GROUP],
        parts: &mut [u64; GROUP],
        tally: &mut Tally,
    ) {
        let _ = &self.len;
        self.high_numbers(asked, before);
        self.high
            .select0_each_counted(&mut before[..asked.len()], tally);
        self.go_on_each(asked, before, after, parts, tally);
    }

    // Does the same, from the positions of the zeros before.
    #[inline(always)]
    fn go_on_each(
        &self,
        asked: &[u64],
        before: &[usize; GROUP],
        after: &mut [usize; GROUP],
        parts: &mut [u64; GROUP],
        tally: &mut Tally,
    ) {
        for j in 0..asked.len() {
            if self.is_inside(asked[j]) {
                after[j] = self.zero_past(asked[j], before[j], tally);
                parts[j] = self.first_part(asked[j], before[j], tally);
            }
        }
    }

    // Returns the position of the zero after the elements with the high part of a number, from that of the zero
    // before.
    #[inline(always)]
    fn zero_past(&self, v: u64, before: usize, tally: &mut Tally) -> usize {
        let _ = &self.len;
        zero_after(&self.high, self.high_number(v), before, tally)
    }

    // Returns the low part of the first of these elements, or of the next one if there are none.
    #[inline(always)]
    fn first_part(&self, v: u64, before: usize, tally: &mut Tally) -> u64 {
        let _ = self.len();
        self.low_part(before - self.high_number(v), tally)
    }
}
