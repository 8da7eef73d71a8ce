//! The parts of an ascending list, and a test of whether parts are those of one.

use crate::rattle::prelude::*;

use super::EliasFanoVec;
use super::make::width_of;
use crate::rattle::AllocError;
use crate::rattle::Allocator;
use crate::proved::vers_bits::bit_vec::{BitVec, MAX_LEN as MOST_BITS};
use crate::proved::vers_rank::fast_rs_vec::RsVec;
use crate::proved::vers_tally::tally::{CountedBits, Uncounted};

/// Bits that are read by limbs.
pub trait Limbs {
    /// Returns the number of bits.
    fn len(&self) -> usize;

    /// Returns limb `k`. Precondition: limb `k` contains at least one bit.
    fn limb(&self, k: usize) -> u64;
}

impl<A: Allocator + Copy> Limbs for BitVec<A> {
    #[inline]
    fn len(&self) -> usize {
        self.len()
    }

    #[inline]
    fn limb(&self, k: usize) -> u64 {
        self.limb(k)
    }
}

/// The length of a list, and its first and last element, or 0 if there are none.
#[derive(Clone, Copy, PartialEq, Eq, Debug)]
pub struct Ends {
    /// The number of elements.
    pub len: usize,
    /// The first element.
    pub first: u64,
    /// The last element.
    pub last: u64,
}

/// The numbers of bits of the low and of the high parts of a list.
#[derive(Clone, Copy, PartialEq, Eq, Debug)]
pub struct PartLengths {
    /// The number of bits of the low parts.
    pub low: usize,
    /// The number of bits of the high parts.
    pub high: usize,
}

impl Ends {
    // Returns the distance of the last element from the first.
    #[inline]
    fn span(&self) -> u64 {
        self.last.saturating_sub(self.first)
    }

    /// Returns the numbers of bits of the parts of such a list. `None` if one of them exceeds `MAX_LEN` of bit
    /// vectors.
    pub fn part_lengths(&self) -> Option<PartLengths> {
        if self.len == 0 {
            return Some(PartLengths { low: 0, high: 0 });
        }
        let span = self.span();
        let width = width_of(self.len, span);
        let low = self.len.checked_mul(width)?;
        let high = self.len.checked_add((span >> width) as usize)?;
        let high = high.checked_add(2)?;
        Some(PartLengths { low, high })
    }
}

// Returns limb `k`, or 0 if it contains no bit.
#[inline(always)]
fn limb_or_zero<L: Limbs>(bits: &L, k: usize) -> u64 {
    if k < bits.len().div_ceil(64) {
        bits.limb(k)
    } else {
        0
    }
}

// Bits of a list that were read ahead, as a number: the last `len` of the first `limbs` limbs.
#[derive(Clone, Copy)]
struct Bits {
    limbs: usize,
    len: usize,
    word: u64,
}

// Returns the next `width` bits. Reads one more limb if fewer were read ahead.
#[inline(always)]
fn next_part<L: Limbs>(low: &L, width: usize, bits: &mut Bits) -> u64 {
    let _ = low.len();
    if bits.len >= width {
        let word = bits.word;
        bits.word = word >> width;
        bits.len -= width;
        return word % (1 << width);
    }
    let next = low.limb(bits.limbs);
    let word = bits.word | (next << bits.len);
    *bits = Bits {
        limbs: bits.limbs + 1,
        len: bits.len + 64 - width,
        word: next >> (width - bits.len),
    };
    word % (1 << width)
}

// A walk over the elements of a list: what was read ahead of their low parts, the position of the one of the last
// element, and the least low part that the next element may have if its one is at the next position.
#[derive(Clone, Copy)]
struct Walk {
    lows: Bits,
    position: usize,
    least: u64,
}

impl Walk {
    // Returns a walk before the first element.
    fn new() -> Walk {
        let lows = Bits {
            limbs: 0,
            len: 0,
            word: 0,
        };
        Walk {
            lows,
            position: 0,
            least: 0,
        }
    }
}

// Reads the low part of the next element, whose one is at `position`. Returns true if it may follow the last one.
#[inline(always)]
fn read_element<L: Limbs, const RISING: bool>(
    low: &L,
    width: usize,
    position: usize,
    walk: &mut Walk,
) -> bool {
    let part = next_part(low, width, &mut walk.lows);
    let past = walk.position + usize::from(part < walk.least);
    walk.position = position;
    walk.least = part + u64::from(RISING);
    past < position
}

// Reads the elements whose ones are in limb `k` of the high parts. Returns true if each may follow the one before it.
#[inline(always)]
fn read_limb<L: Limbs, H: Limbs, const RISING: bool>(
    low: &L,
    high: &H,
    width: usize,
    k: usize,
    walk: &mut Walk,
) -> bool {
    let _ = high.len();
    let mut word = high.limb(k);
    while word != 0 {
        let position = 64 * k + word.trailing_zeros() as usize;
        word &= word - 1;
        if !read_element::<L, RISING>(low, width, position, walk) {
            return false;
        }
    }
    true
}

// Returns the number of ones.
fn count_ones_in<L: Limbs>(bits: &L) -> usize {
    let mut ones = 0;
    for k in 0..bits.len().div_ceil(64) {
        ones += bits.limb(k).count_ones() as usize;
    }
    ones
}

// Returns how far an element is above the first, by the position of its one and its low part. `None` if it is too far,
// or there is no zero before that one.
#[inline(always)]
fn above_of(i: usize, position: usize, low: u64, width: usize, span: u64) -> Option<u64> {
    if position <= i {
        return None;
    }
    let high = (position - i - 1) as u64;
    if high > span >> width {
        return None;
    }
    Some((high << width) | low)
}

// Returns true if element 0 is the first one: its one is at position 1, and its low part is 0.
fn begins_at_first<L: Limbs, H: Limbs>(low: &L, high: &H, width: usize) -> bool {
    limb_or_zero(high, 0) % 4 == 2 && limb_or_zero(low, 0) % (1 << width) == 0
}

// Returns true if parts with as many bits and ones as a list with these ends has are those of such a list. The loop is
// faster in a function of its own, which isn't inlined.
#[inline(never)]
fn are_decodable<L: Limbs, H: Limbs, const RISING: bool>(
    ends: Ends,
    width: usize,
    low: &L,
    high: &H,
) -> bool {
    if !begins_at_first(low, high, width) {
        return false;
    }
    let mut walk = Walk::new();
    for k in 0..high.len().div_ceil(64) {
        if !read_limb::<L, H, RISING>(low, high, width, k, &mut walk) {
            return false;
        }
    }
    let part = walk.least - u64::from(RISING);
    let span = ends.span();
    let end = match above_of(ends.len - 1, walk.position, part, width, span) { Some(end) => end, _ => {
        return false;
    } };
    end == span
}

/// Returns true if these are the ends and the parts of a list that ascends, strictly if `rising`. Reads the parts
/// once, and allocates nothing.
pub fn are_parts<L: Limbs, H: Limbs>(ends: Ends, low: &L, high: &H, rising: bool) -> bool {
    let (low_bits, high_bits) = (low.len(), high.len());
    let lengths = match ends.part_lengths() { Some(lengths) => lengths, _ => {
        return false;
    } };
    if low_bits != lengths.low || high_bits != lengths.high {
        return false;
    }
    if ends.len == 0 {
        return ends.first == 0 && ends.last == 0;
    }
    if ends.first > ends.last || count_ones_in(high) != ends.len {
        return false;
    }
    let width = width_of(ends.len, ends.span());
    if rising {
        are_decodable::<L, H, true>(ends, width, low, high)
    } else {
        are_decodable::<L, H, false>(ends, width, low, high)
    }
}

impl<A: Allocator + Copy> EliasFanoVec<A> {
    /// Returns the list with these ends and parts. Precondition: there is one, as `are_parts` tests. Errors:
    /// `AllocError` only if the allocator refuses a request.
    pub fn from_parts(ends: Ends, low: BitVec<A>, high: BitVec<A>) -> Result<Self, AllocError> {
        let width = width_of(ends.len, ends.span());
        Ok(EliasFanoVec {
            high: RsVec::from_bit_vec(high)?,
            low: CountedBits::new(low),
            first: ends.first,
            last: ends.last,
            width,
            len: ends.len,
        })
    }

    /// Returns the number of elements, the first and the last.
    pub fn ends(&self) -> Ends {
        Ends {
            len: self.len,
            first: self.first,
            last: self.last,
        }
    }

    /// Returns the low parts of the elements, one after another.
    pub fn low_parts(&self) -> &BitVec<A> {
        let _ = &self.len;
        self.low.as_bit_vec(Uncounted)
    }

    /// Returns the high parts of the elements, with their index.
    pub fn high_parts(&self) -> &RsVec<A> {
        let _ = &self.len;
        &self.high
    }
}
