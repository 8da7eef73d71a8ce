//! The levels of a wavelet matrix, and the matrix of given levels.

use crate::rattle::prelude::*;

use crate::proved::vers_wavelet::wavelet::WaveletMatrix;
use crate::rattle::Allocator;
use crate::proved::vers_rank::fast_rs_vec::RsVec;

// The greatest number of levels.
const MAX_LEVELS: usize = 65535;

// Returns the length of each of the levels. `None` if their lengths differ, or there are too many.
fn common_len<A: Allocator + Copy>(levels: &[RsVec<A>]) -> Option<usize> {
    if levels.is_empty() {
        return Some(0);
    }
    if levels.len() > MAX_LEVELS {
        return None;
    }
    let len = levels[0].len();
    for k in 0..levels.len() {
        if levels[k].len() != len {
            return None;
        }
    }
    Some(len)
}

impl<A: Allocator + Copy> WaveletMatrix<A> {
    /// Returns level `k`: the bit of each symbol's digit `bits_per_element() - 1 - k`, in the order that a stable
    /// sort by the higher digits gives, zeros first. Precondition: `k` is below `bits_per_element()`.
    #[inline]
    pub fn level(&self, k: usize) -> &RsVec<A> {
        &self.levels()[k]
    }

    /// Returns the matrix with these levels. `None` if their lengths differ, or if there are more than 65535.
    /// Allocates nothing.
    pub fn from_levels(levels: Vec<RsVec<A>, A>) -> Option<Self> {
        let len = common_len(levels.as_slice())?;
        Some(WaveletMatrix { levels, len })
    }
}
