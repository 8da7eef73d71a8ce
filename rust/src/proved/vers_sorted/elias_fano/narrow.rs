//! Interpolation of a number's position among many elements with the same high part.

use crate::rattle::prelude::*;

use super::EliasFanoVec;
use super::search::Bucket;
use crate::rattle::Allocator;
use crate::proved::vers_tally::tally::Tally;

// The range of positions that contains the end of the elements below a number.
#[derive(Clone, Copy)]
pub(super) struct Between {
    pub(super) from: usize,
    pub(super) to: usize,
}

// The number of elements with the same high part from which on interpolation pays off.
pub(super) const MANY: usize = 256;

// Returns the position of a low part among `count` that rise evenly from `first` to `last`.
#[inline(always)]
fn guess(first: u64, last: u64, low: u64, count: usize) -> usize {
    let span = last.saturating_sub(first);
    let above = low.saturating_sub(first).min(span);
    let shift = 32u32.saturating_sub(span.leading_zeros());
    let share = (above >> shift).wrapping_mul(count as u64);
    (share / (span >> shift).max(1)) as usize
}

impl<A: Allocator + Copy> EliasFanoVec<A> {
    // Returns the range that contains the end of the elements below `v`. If the elements rise evenly, but for a
    // few at both ends, it is short.
    #[inline(always)]
    pub(super) fn narrowed(&self, bucket: Bucket, v: u64, low: u64, tally: &mut Tally) -> Between {
        let _ = self.len();
        let all = Between {
            from: bucket.start,
            to: bucket.end,
        };
        let count = bucket.end - bucket.start;
        if count < MANY {
            return all;
        }
        // A few at both ends may be far from the others.
        let start = bucket.start + count / 64;
        let last = bucket.end - 1 - count / 64;
        let from = self.low_part(start, tally);
        let to = self.low_part(last, tally);
        let after = self.side_of(bucket, v, low, all, start, from);
        let between = self.side_of(bucket, v, low, after, last, to);
        let near = start.saturating_add(guess(from, to, low, count - count / 32));
        let margin = count / MANY;
        let lower = near.saturating_sub(margin);
        let after = self.probed(bucket, v, low, between, lower, tally);
        self.probed(bucket, v, low, after, near.saturating_add(margin), tally)
    }

    // Returns the side of position `i` that contains the end of the elements below `v`, if `i` is one of the
    // positions.
    #[inline(always)]
    fn probed(
        &self,
        bucket: Bucket,
        v: u64,
        low: u64,
        between: Between,
        i: usize,
        tally: &mut Tally,
    ) -> Between {
        let _ = self.len();
        if i < between.from {
            return between;
        }
        if i >= between.to {
            return between;
        }
        let part = self.low_part(i, tally);
        self.side_of(bucket, v, low, between, i, part)
    }

    // Does the same from the low part of the element at position `i`, which was read.
    #[inline(always)]
    fn side_of(
        &self,
        bucket: Bucket,
        v: u64,
        low: u64,
        between: Between,
        i: usize,
        part: u64,
    ) -> Between {
        let _ = self.len();
        if i < between.from {
            return between;
        }
        if i >= between.to {
            return between;
        }
        if part < low {
            return Between {
                from: i + 1,
                to: between.to,
            };
        }
        Between {
            from: between.from,
            to: i,
        }
    }
}
