//! Steps along the high parts that read the next bits before they use a select.

use crate::rattle::prelude::*;

use crate::rattle::Allocator;
use crate::proved::vers_rank::fast_rs_vec::RsVec;
use crate::proved::vers_tally::tally::Tally;

// Returns the position of the zero after zero `h`, from the position of zero `h`.
#[inline(always)]
pub(super) fn zero_after<A: Allocator + Copy>(
    high: &RsVec<A>,
    h: usize,
    position: usize,
    tally: &mut Tally,
) -> usize {
    let _ = high.len();
    if let Some(word) = high.get_bits_counted(position + 1, 64, tally) {
        if word != u64::MAX {
            return position + 1 + word.trailing_ones() as usize;
        }
    }
    high.select0_counted(h + 1, tally)
}

// Returns the position of one `k`, the next one from position `from` on.
#[inline(always)]
pub(super) fn one_from<A: Allocator + Copy>(
    high: &RsVec<A>,
    k: usize,
    from: usize,
    tally: &mut Tally,
) -> usize {
    let _ = high.len();
    if let Some(word) = high.get_bits_counted(from, 64, tally) {
        if word != 0 {
            return from + word.trailing_zeros() as usize;
        }
    }
    high.select1_counted(k, tally)
}

// Returns the position of one `k`, the last one before position `to`.
#[inline(always)]
pub(super) fn one_before<A: Allocator + Copy>(
    high: &RsVec<A>,
    k: usize,
    to: usize,
    tally: &mut Tally,
) -> usize {
    let _ = high.len();
    if to >= 64 {
        if let Some(word) = high.get_bits_counted(to - 64, 64, tally) {
            if word != 0 {
                return to - 1 - word.leading_zeros() as usize;
            }
        }
    }
    high.select1_counted(k, tally)
}
