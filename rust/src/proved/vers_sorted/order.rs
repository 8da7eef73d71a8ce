//! Tests of a constructor's preconditions on a caller's numbers.

use crate::rattle::prelude::*;

/// Returns true if the numbers ascend: no number is below the previous one. `EliasFanoVec::from_slice` requires
/// this.
pub fn is_ascending(numbers: &[u64]) -> bool {
    is_in_order::<false>(numbers)
}

/// Returns true if the numbers ascend strictly: each number is above the previous one. `SparseRSVec::new`
/// requires this.
pub fn is_strictly_ascending(numbers: &[u64]) -> bool {
    is_in_order::<true>(numbers)
}

// Returns true if each number is below the next one, or at most that if not `STRICT`. No number ends the loop, so the
// compiler compares several at once.
fn is_in_order<const STRICT: bool>(numbers: &[u64]) -> bool {
    let (_first, next) = match numbers.split_first() { Some((_first, next)) => (_first, next), _ => {
        return true;
    } };
    let before = &numbers[..next.len()];
    let mut faults: usize = 0;
    for i in 0..before.len() {
        faults += usize::from(is_out_of_order::<STRICT>(before[i], next[i]));
    }
    faults == 0
}

// Returns true if two numbers aren't in that order.
#[inline(always)]
fn is_out_of_order<const STRICT: bool>(one: u64, next: u64) -> bool {
    if STRICT { next <= one } else { next < one }
}

/// Returns true if each number is below a limit. `SparseRSVec::new` requires this of its length.
pub fn are_below(numbers: &[u64], limit: u64) -> bool {
    numbers.iter().all(|number| *number < limit)
}
