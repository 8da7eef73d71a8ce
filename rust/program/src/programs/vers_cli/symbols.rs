//! The load line of a list of symbols.

use crate::rattle::prelude::*;

use crate::programs::vers_cli::name::Load;
use crate::programs::catalogue::structure::Structure;
use crate::rattle::AllocError;
use crate::rattle::Allocator;
use crate::proved::vers_bits::bit_vec::BitVec;
use crate::proved::vers_bits::laws::packed_elements_are_items;
use crate::proved::vers_wavelet::wavelet::WaveletMatrix;
use crate::programs::vers_words::arguments::count_numbers;
use crate::programs::vers_words::loading::Loading;
use crate::programs::vers_words::text::{number, split_first_word};

// The greatest number of bits of a symbol.
const WIDEST: u64 = 64;

/// Returns true if the load line `symbols K n ..` is accepted.
pub fn is_accepted(arguments: &[u8]) -> bool {
    let Some((word, numbers)) = split_first_word(arguments) else {
        return false;
    };
    match number(word) {
        None => false,
        Some(width) => width <= WIDEST && count_numbers(numbers).is_some(),
    }
}

/// Returns the result of the load line `symbols K n ..`. Its numbers are packed as they are read. Errors:
/// `AllocError` if the allocator refuses a request.
pub fn load<'a, A: Allocator + Copy>(
    alloc: &'a A,
    arguments: &[u8],
) -> Result<Loading<Structure<'a, A>>, AllocError> {
    let Some((word, numbers)) = split_first_word(arguments) else {
        return Ok(Loading::Malformed);
    };
    let Some(width) = number(word) else {
        return Ok(Loading::Malformed);
    };
    let Some(packed) = packed_numbers(*alloc, numbers, kept_width(width))? else {
        return Ok(Loading::Malformed);
    };
    if width > WIDEST {
        return Ok(Loading::Inadmissible);
    }
    match of_packed(&packed, width as u16) {
        Ok(symbols) => Ok(Loading::Accepted(Structure::Symbols(symbols))),
        Err(error) => Err(error),
    }
}

// Returns the number of bits of each number that are kept: none if the width is refused.
fn kept_width(width: u64) -> usize {
    if width <= WIDEST { width as usize } else { 0 }
}

// Returns the low `width` bits of each number of a line, one after another. `None` if a word is no number below
// 2^64.
fn packed_numbers<A: Allocator + Copy>(
    alloc: A,
    arguments: &[u8],
    width: usize,
) -> Result<Option<BitVec<A>>, AllocError> {
    let mut packed = BitVec::new(alloc);
    let mut rest = arguments;
    while let Some((word, others)) = split_first_word(rest) {
        let Some(value) = number(word) else {
            return Ok(None);
        };
        append_low(&mut packed, value, width)?;
        rest = others;
    }
    Ok(Some(packed))
}

// Appends the low `n` bits of a number. More bits than a list may have need more memory than there can be.
fn append_low<A: Allocator + Copy>(
    bits: &mut BitVec<A>,
    number: u64,
    n: usize,
) -> Result<(), AllocError> {
    if bits.append_bits(number, n).is_err() {
        return Err(AllocError);
    }
    Ok(())
}

// Returns the symbols of `width` bits each in a list of bits; none if `width` is 0.
fn of_packed<A: Allocator + Copy>(
    packed: &BitVec<A>,
    width: u16,
) -> Result<WaveletMatrix<A>, AllocError> {
    packed_elements_are_items();
    if width == 0 {
        return WaveletMatrix::from_slice(packed.allocator(), &[], 0);
    }
    WaveletMatrix::from_bit_vec(packed, width)
}
