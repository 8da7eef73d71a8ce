//! Constructors of wavelet matrices.

use crate::rattle::prelude::*;

use crate::proved::vers_wavelet::wavelet::WaveletMatrix;
use crate::proved::vers_wavelet::wavelet::integer::Integer;
use crate::proved::vers_wavelet::wavelet::make::count::counted_levels;
use crate::proved::vers_wavelet::wavelet::make::sort::{all_items, sorted_levels};
use crate::proved::vers_wavelet::wavelet::make::source::{Packed, Source, Words};
use crate::proved::vers_wavelet::wavelet::make::unpack::low_integers;
pub use crate::proved::vers_wavelet::wavelet::make::unpack::unpacked;
use crate::rattle::AllocError;
use crate::rattle::Allocator;
use crate::proved::vers_bits::bit_vec::{BitVec, MAX_LEN};

mod count;
mod sort;
mod source;
mod unpack;

impl<A: Allocator + Copy> WaveletMatrix<A> {
    /// Returns the matrix of the low `bits_per_element` bits of each number, by stable sorting; it is empty if
    /// that is 0. Allocates two buffers of as many numbers, in addition to the levels: each has the least of 8, 16, 32
    /// and 64 bits that a symbol needs. Precondition: `bits_per_element` is at most 64. Errors: `AllocError` if the
    /// allocator refuses a request.
    pub fn from_slice(alloc: A, numbers: &[u64], bits_per_element: u16) -> Result<Self, AllocError> {
        match bits_per_element {
            1..=8 => WaveletMatrix::of_low::<u8>(alloc, numbers, bits_per_element),
            9..=16 => WaveletMatrix::of_low::<u16>(alloc, numbers, bits_per_element),
            17..=32 => WaveletMatrix::of_low::<u32>(alloc, numbers, bits_per_element),
            _ => WaveletMatrix::from_integers(alloc, numbers, bits_per_element),
        }
    }

    /// Returns the matrix that `from_slice` does, from numbers of 8, 16, 32 or 64 bits each; the buffers have numbers
    /// of the same type. Precondition and errors as for `from_slice`.
    pub fn from_integers<N: Integer>(
        alloc: A,
        numbers: &[N],
        bits_per_element: u16,
    ) -> Result<Self, AllocError> {
        let source = Words::new(numbers, bits_per_element as usize);
        WaveletMatrix::sorted(alloc, &source)
    }

    /// Returns the matrix of the symbols of `bits_per_element` bits each in a list of bits, by stable sorting.
    /// Allocates two buffers of as many numbers as symbols, in addition to the levels: each has the least of 8, 16,
    /// 32 and 64 bits that a symbol needs, or 64 for wider symbols. Precondition: the list's length is a multiple of
    /// `bits_per_element`, which isn't 0. Errors: `AllocError` if the allocator refuses a request.
    pub fn from_bit_vec(bits: &BitVec<A>, bits_per_element: u16) -> Result<Self, AllocError> {
        match bits_per_element {
            0..=8 => WaveletMatrix::of_packed::<u8>(bits, bits_per_element),
            9..=16 => WaveletMatrix::of_packed::<u16>(bits, bits_per_element),
            17..=32 => WaveletMatrix::of_packed::<u32>(bits, bits_per_element),
            33..=64 => WaveletMatrix::of_packed::<u64>(bits, bits_per_element),
            _ => {
                let source = Packed::new(bits, bits_per_element as usize);
                WaveletMatrix::sorted(bits.allocator(), &source)
            }
        }
    }

    /// Returns the matrix that `from_slice` does, by counting prefixes. Allocates two tables of `2 ^
    /// bits_per_element` numbers, in addition to the levels; from 60 bits on this fails, out of memory.
    /// Precondition: `bits_per_element` is from 1 to 63. Errors: `AllocError` if the allocator refuses a
    /// request.
    pub fn from_slice_pc(
        alloc: A,
        numbers: &[u64],
        bits_per_element: u16,
    ) -> Result<Self, AllocError> {
        let source = Words::new(numbers, bits_per_element as usize);
        WaveletMatrix::counted(alloc, &source)
    }

    /// Returns the matrix that `from_bit_vec` does, by counting prefixes. Allocates two tables of `2 ^
    /// bits_per_element` numbers, in addition to the levels; from 60 bits on this fails, out of memory.
    /// Precondition: `bits_per_element` is from 1 to 63, and the list's length a multiple of it. Errors:
    /// `AllocError` if the allocator refuses a request.
    pub fn from_bit_vec_pc(bits: &BitVec<A>, bits_per_element: u16) -> Result<Self, AllocError> {
        let source = Packed::new(bits, bits_per_element as usize);
        WaveletMatrix::counted(bits.allocator(), &source)
    }

    // Returns the matrix of the numbers of a source, by stable sorting.
    fn sorted<S: Source>(alloc: A, source: &S) -> Result<Self, AllocError> {
        let items = all_items(alloc, source)?;
        WaveletMatrix::of_items(alloc, source, items, source.len())
    }

    // Returns the matrix of the numbers of `len` items of a source, by stable sorting.
    fn of_items<S: Source>(
        alloc: A,
        source: &S,
        items: Vec<S::Item, A>,
        len: usize,
    ) -> Result<Self, AllocError> {
        let levels = sorted_levels(alloc, source, items)?;
        Ok(WaveletMatrix { levels, len })
    }

    // Returns the matrix of the symbols of `bits_per_element` bits each in a list of bits, which are sorted as numbers
    // of a type.
    fn of_packed<N: Integer>(bits: &BitVec<A>, bits_per_element: u16) -> Result<Self, AllocError> {
        let width = bits_per_element as usize;
        let numbers = unpacked::<N, A>(bits, width)?;
        let source = Words::new(&[], width);
        WaveletMatrix::of_items(bits.allocator(), &source, numbers, bits.len() / width)
    }

    // Returns the matrix of the low `bits_per_element` bits of each number, which are sorted as numbers of a type.
    fn of_low<N: Integer>(
        alloc: A,
        numbers: &[u64],
        bits_per_element: u16,
    ) -> Result<Self, AllocError> {
        let width = bits_per_element as usize;
        let low = low_integers::<N, A>(alloc, numbers, width)?;
        let source = Words::new(&[], width);
        WaveletMatrix::of_items(alloc, &source, low, numbers.len())
    }

    // Returns the matrix of the numbers of a source, by counting prefixes.
    fn counted<S: Source>(alloc: A, source: &S) -> Result<Self, AllocError> {
        let levels = counted_levels(alloc, source)?;
        let len = source.len();
        Ok(WaveletMatrix { levels, len })
    }
}
