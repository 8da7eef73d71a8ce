//! The entries of the 16 blocks of a superblock, compared at once by lanes.

use crate::rattle::prelude::*;

use crate::rattle::lanes::*;

/// The least difference of numbers of a superblock that has wrapped around.
pub(crate) const FAR_BELOW: u16 = 0x8000;

/// The number of positions of a superblock before each of its blocks.
const STARTS: [u16; 16] = [
    0, 512, 1024, 1536, 2048, 2560, 3072, 3584, 4096, 4608, 5120, 5632, 6144, 6656, 7168, 7680,
];

// A block of a superblock, and the number within it of a number in the superblock.
#[derive(Clone, Copy)]
pub(crate) struct FoundBlock {
    pub(crate) block: u16,
    pub(crate) rest: u16,
}

// Returns the last of the 16 blocks of a superblock before which at most `r` positions have the bit, by the
// zeros before each.
#[inline(always)]
pub(crate) fn last_up_to(zeros: u16x16, bit: bool, r: u16) -> FoundBlock {
    let below = differences(zeros, bit, r);
    let block = 15 - far_below(below);
    FoundBlock {
        block,
        rest: below.to_array()[block as usize],
    }
}

// Returns `r` minus the number of positions before each block that have the bit, wrapping around if that
// exceeds `r`.
#[inline(always)]
fn differences(zeros: u16x16, bit: bool, r: u16) -> u16x16 {
    if bit {
        return u16x16::splat(r) + zeros - u16x16::from_slice(&STARTS);
    }
    u16x16::splat(r) - zeros
}

// Returns how many of 16 differences wrapped around.
#[inline(always)]
fn far_below(below: u16x16) -> u16 {
    let far = below.simd_ge(u16x16::splat(FAR_BELOW)).to_bitmask();
    far.count_ones() as u16
}
