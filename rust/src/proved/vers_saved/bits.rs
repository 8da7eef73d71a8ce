//! Lists of bits, saved by their limbs.

use crate::rattle::prelude::*;

use crate::proved::vers_saved::form::{Shape, bits_of, taken};
use crate::proved::vers_saved::kind::{BIT_LISTS, Kind};
use crate::proved::vers_saved::saved::{Loaded, Saved};
use crate::rattle::AllocError;
use crate::rattle::Allocator;
use crate::proved::vers_bits::bit_vec::BitVec;
use crate::proved::vers_rank::fast_rs_vec::RsVec;

// Returns the shape of a list of `count` bits.
fn shape_of(count: usize) -> Shape {
    Shape { count, width: 1 }
}

// Returns limb `k`.
#[inline]
pub(crate) fn limb_of<A: Allocator + Copy>(bits: &RsVec<A>, k: usize) -> u64 {
    let len = bits.len();
    let position = 64 * k;
    let left = len - position;
    // For a whole limb the compiler removes shift and mask.
    if left < 64 {
        bits.get_bits_unchecked(position, left)
    } else {
        bits.get_bits_unchecked(position, 64)
    }
}

impl<A: Allocator + Copy> Saved for BitVec<A> {
    type Prepared = ();

    fn kind() -> Kind {
        BIT_LISTS
    }

    fn shape(&self) -> Option<Shape> {
        Some(shape_of(self.len()))
    }

    #[inline]
    fn word(&self, k: usize) -> u64 {
        self.limb(k)
    }

    fn prepare(&self) {}
}

impl<A: Allocator + Copy> Loaded<A> for BitVec<A> {
    fn make(of: Shape, held: &mut Vec<u64, A>) -> Result<Self, AllocError> {
        Ok(bits_of(&BIT_LISTS, of, taken(held)))
    }
}

impl<A: Allocator + Copy> Saved for RsVec<A> {
    type Prepared = ();

    fn kind() -> Kind {
        BIT_LISTS
    }

    fn shape(&self) -> Option<Shape> {
        Some(shape_of(self.len()))
    }

    #[inline]
    fn word(&self, k: usize) -> u64 {
        limb_of(self, k)
    }

    fn prepare(&self) {}
}

impl<A: Allocator + Copy> Loaded<A> for RsVec<A> {
    fn make(of: Shape, held: &mut Vec<u64, A>) -> Result<Self, AllocError> {
        RsVec::from_bit_vec(bits_of(&BIT_LISTS, of, taken(held)))
    }
}
