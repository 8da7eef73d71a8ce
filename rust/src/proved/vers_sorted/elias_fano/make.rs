//! Constructors of ascending lists.

use crate::rattle::prelude::*;

use crate::proved::vers_sorted::elias_fano::EliasFanoVec;
use crate::proved::vers_sorted::elias_fano::low::{Gathered, add_part};
use crate::rattle::AllocError;
use crate::rattle::Allocator;
use crate::proved::vers_bits::bit_vec::{BitVec, GrowError, MAX_LEN as MOST_BITS};
use crate::proved::vers_rank::fast_rs_vec::RsVec;
use crate::proved::vers_tally::tally::CountedBits;

/// The greatest length of a list. No slice of numbers is longer.
pub const MAX_LEN: usize = 1152921504606846975;

/// Numbers that are read one by one, and once more from a copy.
pub trait Numbers: Copy {
    /// Takes the first of the numbers left. `None` if none is left.
    fn next(&mut self) -> Option<u64>;
}

// The numbers of a slice.
#[derive(Clone, Copy)]
struct SliceNumbers<'a> {
    rest: &'a [u64],
}

impl Numbers for SliceNumbers<'_> {
    #[inline]
    fn next(&mut self) -> Option<u64> {
        let (first, others) = self.rest.split_first()?;
        self.rest = others;
        Some(*first)
    }
}

impl<A: Allocator + Copy> EliasFanoVec<A> {
    /// Returns the list of the numbers. Precondition: they ascend. Errors: `AllocError` only if the allocator
    /// refuses a request.
    pub fn from_slice(alloc: A, numbers: &[u64]) -> Result<Self, AllocError> {
        let rest = SliceNumbers { rest: numbers };
        EliasFanoVec::from_numbers(alloc, rest, numbers.len(), last_of(numbers))
    }

    /// Returns the list of `len` numbers that are read one by one; `last` is the last one, or 0 if there are
    /// none. Precondition: they ascend, and `len` is their number and at most `MAX_LEN`. Errors: `AllocError`
    /// only if the allocator refuses a request.
    pub fn from_numbers<N: Numbers>(
        alloc: A,
        numbers: N,
        len: usize,
        last: u64,
    ) -> Result<Self, AllocError> {
        let first = first_of(numbers);
        let width = width_of(len, last - first);
        let parts = parts_of(alloc, numbers, len, first, last, width)?;
        Ok(EliasFanoVec {
            high: RsVec::from_bit_vec(parts.high)?,
            low: CountedBits::new(parts.low),
            first,
            last,
            width,
            len,
        })
    }
}

// Returns the first number, or 0.
fn first_of<N: Numbers>(mut numbers: N) -> u64 {
    numbers.next().unwrap_or(0)
}

// Returns the last number, or 0.
fn last_of(numbers: &[u64]) -> u64 {
    if numbers.is_empty() {
        return 0;
    }
    numbers[numbers.len() - 1]
}

// Returns the number of bits of a low part, for `n` numbers that span `u`.
pub(super) fn width_of(n: usize, u: u64) -> usize {
    let bits = clog_of(u.max(2) as u128).max(clog_of(n as u128 + 2));
    bits - clog_of(n.max(2) as u128)
}

// Returns the least exponent of a power of two that is at least `n`.
fn clog_of(n: u128) -> usize {
    if n == 0 { 0 } else { digit_count(n - 1) }
}

// Returns the number of binary digits of a number.
fn digit_count(n: u128) -> usize {
    (128 - n.leading_zeros()) as usize
}

// Returns the number of bits that the high parts of `len` numbers take, if the last high part is `high`.
fn high_length_of(len: usize, high: u64) -> usize {
    if len == 0 {
        return 0;
    }
    2 + len + high as usize
}

// Returns the result of a call on a list that is known to fit: it fails only if the allocator refuses a request.
pub(super) fn known_to_fit<T>(answer: Result<T, GrowError>) -> Result<T, AllocError> {
    match answer {
        Ok(value) => Ok(value),
        Err(GrowError::Memory) => Err(AllocError),
        Err(GrowError::TooLong) => unreachable!(),
    }
}

// High and low parts.
struct Parts<A: Allocator + Copy> {
    high: BitVec<A>,
    low: BitVec<A>,
}

// Returns the parts of ascending numbers: a list of zeros in which the one of each number is set, and the low
// parts one after another.
fn parts_of<A: Allocator + Copy, N: Numbers>(
    alloc: A,
    mut numbers: N,
    len: usize,
    first: u64,
    last: u64,
    width: usize,
) -> Result<Parts<A>, AllocError> {
    let high_len = high_length_of(len, (last - first) >> width);
    let mut high = known_to_fit(BitVec::from_zeros(alloc, high_len))?;
    let mut words = Vec::with_capacity(alloc, (len * width).div_ceil(64))?;
    let mut gathered = Gathered { word: 0, len: 0 };
    let mut i = 0usize;
    while let Some(number) = numbers.next() {
        let _ = high.len();
        let above = number - first;
        high.set_unchecked((above >> width) as usize + i + 1, 1);
        gathered = add_part(&mut words, gathered, above, width);
        i += 1;
    }
    let mut low = known_to_fit(BitVec::from_vec(words))?;
    known_to_fit(low.append_bits(gathered.word, gathered.len))?;
    Ok(Parts { high, low })
}
