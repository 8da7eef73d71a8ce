//! One level of a wavelet matrix: the map of its positions to the next level.

use crate::rattle::prelude::*;

use crate::rattle::Allocator;
use crate::proved::vers_rank::fast_rs_vec::RsVec;
use crate::proved::vers_tally::tally::Tally;

// Returns where the positions from `position` on that have the bit begin in the next level, the zeros at `zeros`.
// No branch on the bit, which would be mispredicted.
#[inline(always)]
pub(super) fn chosen_position<A: Allocator + Copy>(
    level: &RsVec<A>,
    bit: bool,
    position: usize,
    zeros: usize,
) -> usize {
    let ones = level.zeros() + (position - zeros);
    if bit { ones } else { zeros }
}

// Returns where the positions from `position` on that have the bit begin in the next level: by one rank, which
// serves both bits.
#[inline(always)]
pub(super) fn next_position<A: Allocator + Copy>(
    level: &RsVec<A>,
    bit: bool,
    position: usize,
    tally: &mut Tally,
) -> usize {
    let zeros = zeros_before(level, position, tally);
    chosen_position(level, bit, position, zeros)
}

// Returns where the zeros from a position on begin in the next level.
#[inline(always)]
fn zeros_before<A: Allocator + Copy>(level: &RsVec<A>, position: usize, tally: &mut Tally) -> usize {
    level.rank0_counted(position, tally)
}

// Where the zeros from either end of a range on begin in the next level.
#[derive(Clone, Copy)]
pub(super) struct Zeros {
    pub(super) first: usize,
    pub(super) last: usize,
}

// Returns where the zeros from either end of a range on begin in the next level: by two ranks, or by one and a
// bit if the range has one position.
#[inline(always)]
pub(super) fn zeros_before_both<A: Allocator + Copy>(
    level: &RsVec<A>,
    start: usize,
    end: usize,
    tally: &mut Tally,
) -> Zeros {
    let first = zeros_before(level, start, tally);
    if end - start == 1 {
        let is_one = level.is_one_counted(start, tally);
        return Zeros {
            first,
            last: if is_one { first } else { first + 1 },
        };
    }
    let last = zeros_before(level, end, tally);
    Zeros { first, last }
}

// Returns true if a position of the next level is one of those of the bit.
#[inline(always)]
pub(super) fn is_of_bit<A: Allocator + Copy>(level: &RsVec<A>, bit: bool, position: usize) -> bool {
    if bit {
        level.zeros() <= position
    } else {
        position < level.zeros()
    }
}

// Returns the position whose position in the next level is `position`, if that one is among those of the bit. One
// select serves both bits: one for each would be too large to be inlined.
#[inline(always)]
pub(super) fn position_above<A: Allocator + Copy>(
    level: &RsVec<A>,
    bit: bool,
    position: usize,
    tally: &mut Tally,
) -> usize {
    let start = if bit { level.zeros() } else { 0 };
    level.select_counted(bit, position - start, tally)
}

// A range of positions of a level, and the number of symbols below the symbol that were left behind.
#[derive(Clone, Copy)]
pub(super) struct Part {
    pub(super) start: usize,
    pub(super) end: usize,
    pub(super) less: usize,
}

// Returns those of a part that have the bit, in the next level, from where the zeros from its ends on begin
// there.
#[inline(always)]
pub(super) fn part_of_bit<A: Allocator + Copy>(
    level: &RsVec<A>,
    bit: bool,
    part: Part,
    zeros: Zeros,
) -> Part {
    Part {
        start: chosen_position(level, bit, part.start, zeros.first),
        end: chosen_position(level, bit, part.end, zeros.last),
        less: if bit {
            part.less + (zeros.last - zeros.first)
        } else {
            part.less
        },
    }
}

// Returns those of a part that have the bit, in the next level.
#[inline(always)]
pub(super) fn narrow_level<A: Allocator + Copy>(
    level: &RsVec<A>,
    bit: bool,
    part: Part,
    tally: &mut Tally,
) -> Part {
    let zeros = zeros_before_both(level, part.start, part.end, tally);
    part_of_bit(level, bit, part, zeros)
}

// A range of positions of a level, among whose symbols the sought one has rank `left` by size, and the last
// digit found of it.
#[derive(Clone, Copy)]
pub(super) struct Choice {
    pub(super) start: usize,
    pub(super) end: usize,
    pub(super) left: usize,
    pub(super) bit: bool,
}

// Returns the positions with the digit of the sought symbol, in the next level.
#[inline(always)]
pub(super) fn choose_level<A: Allocator + Copy>(
    level: &RsVec<A>,
    from: Choice,
    tally: &mut Tally,
) -> Choice {
    let zeros = zeros_before_both(level, from.start, from.end, tally);
    let passed = zeros.last - zeros.first;
    let bit = from.left >= passed;
    Choice {
        start: chosen_position(level, bit, from.start, zeros.first),
        end: chosen_position(level, bit, from.end, zeros.last),
        left: if bit { from.left - passed } else { from.left },
        bit,
    }
}

// The bit at a position, and the position in the next level.
#[derive(Clone, Copy)]
pub(super) struct Step {
    pub(super) bit: bool,
    pub(super) position: usize,
}

// Reads one level of the symbol at a position.
#[inline(always)]
pub(super) fn read_level<A: Allocator + Copy>(
    level: &RsVec<A>,
    position: usize,
    tally: &mut Tally,
) -> Step {
    let bit = level.is_one_counted(position, tally);
    let position = next_position(level, bit, position, tally);
    Step { bit, position }
}
