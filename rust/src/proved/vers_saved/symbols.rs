//! Lists of symbols, saved by the limbs of the levels of their wavelet matrix.

use crate::rattle::prelude::*;

use crate::proved::vers_saved::bits::limb_of;
use crate::proved::vers_saved::form::{Shape, first_bits, taken};
use crate::proved::vers_saved::kind::{Kind, SYMBOL_LISTS};
use crate::proved::vers_saved::packed::packed_list;
use crate::proved::vers_saved::saved::{Loaded, Saved};
use crate::rattle::AllocError;
use crate::rattle::Allocator;
use crate::proved::vers_bits::bit_vec::MAX_LEN;
use crate::proved::vers_rank::fast_rs_vec::RsVec;
use crate::proved::vers_wavelet::wavelet::WaveletMatrix;

// A limb of a level.
#[derive(Clone, Copy)]
struct Position {
    level: usize,
    limb: usize,
}

// Returns the position of the next limb, where each level has as many limbs.
#[inline(always)]
fn position_after(position: Position, limbs: usize) -> Position {
    let limb = position.limb + 1;
    if limb == limbs {
        return Position {
            level: position.level + 1,
            limb: 0,
        };
    }
    Position {
        level: position.level,
        limb,
    }
}

// Copies the limbs of a level from limb `from` on, as many as the slice has.
fn copy_level<A: Allocator + Copy>(level: &RsVec<A>, from: usize, out: &mut [u64]) {
    for j in 0..out.len() {
        out[j] = limb_of(level, from + j);
    }
}

// Copies the limbs of the levels from limb `from` on, as many as the slice has, which may be of several levels.
fn copy_across<A: Allocator + Copy>(list: &WaveletMatrix<A>, from: usize, out: &mut [u64]) {
    let limbs = list.len().div_ceil(64).max(1);
    let mut position = Position {
        level: from / limbs,
        limb: from % limbs,
    };
    for j in 0..out.len() {
        out[j] = limb_of(list.level(position.level), position.limb);
        position = position_after(position, limbs);
    }
}

// Copies the limbs of the levels from limb `from` on, as many as the slice has. Mostly they are of one level.
fn copy_levels<A: Allocator + Copy>(list: &WaveletMatrix<A>, from: usize, out: &mut [u64]) {
    let limbs = list.len().div_ceil(64).max(1);
    let limb = from % limbs;
    if out.is_empty() || out.len() > limbs - limb {
        copy_across(list, from, out);
        return;
    }
    copy_level(list.level(from / limbs), limb, out);
}

// Returns the first `len` bits of words, of which there are as many as these bits need, with their index.
fn level_of<A: Allocator + Copy>(
    alloc: A,
    len: usize,
    words: &[u64],
) -> Result<RsVec<A>, AllocError> {
    RsVec::from_bit_vec(first_bits(len, Vec::from_slice(alloc, words)?))
}

// Returns the levels in words.
fn levels_of<A: Allocator + Copy>(
    alloc: A,
    of: Shape,
    words: &[u64],
) -> Result<Vec<RsVec<A>, A>, AllocError> {
    let limbs = of.count.div_ceil(64);
    let mut levels = Vec::with_capacity(alloc, of.width)?;
    let mut rest = words;
    for _ in 0..of.width {
        let (level, others) = rest.split_at(limbs);
        levels.push(level_of(alloc, of.count, level)?)?;
        rest = others;
    }
    Ok(levels)
}

impl<A: Allocator + Copy> Saved for WaveletMatrix<A> {
    type Prepared = ();

    fn kind() -> Kind {
        SYMBOL_LISTS
    }

    fn shape(&self) -> Option<Shape> {
        let width = self.bits_per_element();
        let count = self.len();
        if width == 0 || width > 64 {
            return None;
        }
        SYMBOL_LISTS.rows_of_items(count, width)?;
        Some(Shape { count, width })
    }

    fn word(&self, k: usize) -> u64 {
        let mut word = [0];
        copy_levels(self, k, &mut word);
        word[0]
    }

    fn copy_words(&self, from: usize, out: &mut [u64]) {
        copy_levels(self, from, out)
    }

    fn prepare(&self) {}
}

impl<A: Allocator + Copy> Loaded<A> for WaveletMatrix<A> {
    fn make(of: Shape, held: &mut Vec<u64, A>) -> Result<Self, AllocError> {
        let alloc = *held.allocator();
        let levels = levels_of(alloc, of, held.as_slice())?;
        Ok(WaveletMatrix::from_levels(levels).unwrap())
    }

    fn make_packed(of: Shape, held: &mut Vec<u64, A>) -> Result<Self, AllocError> {
        packed_list(of, taken(held))
    }
}
