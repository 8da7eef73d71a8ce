//! The size of a wavelet matrix, and its clones.

use crate::rattle::prelude::*;

use crate::proved::vers_wavelet::wavelet::WaveletMatrix;
use crate::rattle::AllocError;
use crate::rattle::Allocator;
use crate::proved::vers_rank::fast_rs_vec::RsVec;

impl<A: Allocator + Copy> Clone for WaveletMatrix<A> {
    /// Returns a copy of the matrix.
    fn clone(&self) -> Result<Self, AllocError> {
        let levels = self.levels.clone()?;
        Ok(WaveletMatrix {
            levels,
            len: self.len,
        })
    }
}

impl<A: Allocator + Copy> WaveletMatrix<A> {
    /// Returns the number of bytes that the levels take, each a list of as many bits as there are symbols, with
    /// its index; the greatest `usize` if it is larger.
    pub fn heap_size(&self) -> usize {
        size_of_levels(self.levels(), self.len())
    }
}

// Returns the bytes of the levels together: the level of the lowest digits comes last.
fn size_of_levels<A: Allocator + Copy>(levels: &[RsVec<A>], len: usize) -> usize {
    let mut bytes: usize = 0;
    for i in 0..levels.len() {
        let k = levels.len() - (i + 1);
        bytes = bytes.saturating_add(levels[k].heap_size());
    }
    bytes
}
