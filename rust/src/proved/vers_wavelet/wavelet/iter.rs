//! Iterators over the symbols: in their order or ascending, as numbers or as lists of their bits.

use crate::rattle::prelude::*;

use crate::proved::vers_wavelet::wavelet::WaveletMatrix;
use crate::proved::vers_wavelet::wavelet::way::{Found, Way};
use crate::rattle::AllocError;
use crate::rattle::Allocator;
use std::marker::PhantomData;
use crate::proved::vers_bits::bit_vec::BitVec;
use crate::proved::vers_tally::ends::{Borrowing, BothEnds, Owning, Source};
use crate::proved::vers_tally::made_ends::{BorrowingMaker, MadeEnds, Maker, OwningMaker};
use crate::proved::vers_tally::tally::Tally;

/// A wavelet matrix, borrowed or owned.
pub trait Matrix: Sized {
    type Alloc: Allocator + Copy;

    /// Returns the matrix itself.
    fn matrix(&self) -> &WaveletMatrix<Self::Alloc>;
}

impl<'a, A: Allocator + Copy> Matrix for &'a WaveletMatrix<A> {
    type Alloc = A;

    #[inline]
    fn matrix(&self) -> &WaveletMatrix<A> {
        *self
    }
}

impl<A: Allocator + Copy> Matrix for WaveletMatrix<A> {
    type Alloc = A;

    #[inline]
    fn matrix(&self) -> &WaveletMatrix<A> {
        self
    }
}

/// The order in which iterators return the symbols of a matrix.
pub trait Order {
    /// Returns true if symbols come in ascending order, otherwise they come in their own order.
    fn is_by_size() -> bool;
}

/// The symbols' own order.
pub struct InOrder;

impl Order for InOrder {
    #[inline(always)]
    fn is_by_size() -> bool {
        false
    }
}

/// Ascending order.
pub struct BySize;

impl Order for BySize {
    #[inline(always)]
    fn is_by_size() -> bool {
        true
    }
}

/// The symbols of a matrix as numbers, in their order, which iterators read one by one. A symbol has at
/// most 64 bits.
pub struct Numbers<M: Matrix> {
    matrix: M,
}

impl<M: Matrix> Numbers<M> {
    fn new(matrix: M) -> Self {
        Numbers { matrix }
    }
}

impl<M: Matrix> Source for Numbers<M> {
    type Item = u64;

    #[inline]
    fn count_items(&self) -> usize {
        self.matrix.matrix().len()
    }

    #[inline(always)]
    fn item_at(&mut self, i: usize, tally: &mut Tally) -> u64 {
        let mut answer: u64 = 0;
        self.matrix.matrix().read_at(i, &mut answer, tally);
        answer
    }
}

impl<'a, A: Allocator + Copy> Borrowing for Numbers<&'a WaveletMatrix<A>> {
    fn second(&self) -> Self {
        Numbers::new(self.matrix)
    }
}

impl<A: Allocator + Copy> Owning for Numbers<WaveletMatrix<A>> {
    fn second(&self) -> Result<Self, AllocError> {
        let matrix = self.matrix.clone()?;
        Ok(Numbers::new(matrix))
    }
}

/// The symbols of a matrix as numbers, ascending, which iterators read one by one. A symbol has at most 64
/// bits. It keeps the last symbol found, with the elements that are equal to it, and the path down to it, from
/// which the next one is found.
pub struct SortedNumbers<M: Matrix> {
    matrix: M,
    way: Way,
    found: Found,
}

impl<M: Matrix> SortedNumbers<M> {
    fn new(matrix: M) -> Self {
        SortedNumbers {
            matrix,
            way: Way::new(),
            found: Found {
                symbol: 0,
                from: 0,
                count: 0,
            },
        }
    }
}

impl<M: Matrix> Source for SortedNumbers<M> {
    type Item = u64;

    #[inline]
    fn count_items(&self) -> usize {
        self.matrix.matrix().len()
    }

    #[inline(always)]
    fn item_at(&mut self, i: usize, tally: &mut Tally) -> u64 {
        if self.found.has(i) {
            return self.found.symbol;
        }
        let matrix = self.matrix.matrix();
        self.found = matrix.find_by_size(&mut self.way, i, tally);
        self.found.symbol
    }
}

impl<'a, A: Allocator + Copy> Borrowing for SortedNumbers<&'a WaveletMatrix<A>> {
    fn second(&self) -> Self {
        SortedNumbers::new(self.matrix)
    }
}

impl<A: Allocator + Copy> Owning for SortedNumbers<WaveletMatrix<A>> {
    fn second(&self) -> Result<Self, AllocError> {
        let matrix = self.matrix.clone()?;
        Ok(SortedNumbers::new(matrix))
    }
}

/// The symbols of a matrix as lists of their bits, in the order `O`, which iterators make one by
/// one.
pub struct SymbolLists<O: Order, M: Matrix> {
    matrix: M,
    order: PhantomData<O>,
}

/// The symbols of a matrix as lists of their bits, in their order.
pub type Lists<M> = SymbolLists<InOrder, M>;

/// The symbols of a matrix as lists of their bits, ascending.
pub type SortedLists<M> = SymbolLists<BySize, M>;

impl<O: Order, M: Matrix> SymbolLists<O, M> {
    fn new(matrix: M) -> Self {
        SymbolLists {
            matrix,
            order: PhantomData,
        }
    }
}

impl<O: Order, M: Matrix> Maker for SymbolLists<O, M> {
    type Item = BitVec<M::Alloc>;

    #[inline]
    fn count_items(&self) -> usize {
        self.matrix.matrix().len()
    }

    fn make_at(&mut self, i: usize, tally: &mut Tally) -> Result<BitVec<M::Alloc>, AllocError> {
        let matrix = self.matrix.matrix();
        let mut answer = matrix.zero_symbol()?;
        matrix.element(O::is_by_size(), i, &mut answer, tally);
        Ok(answer)
    }
}

impl<'a, O: Order, A: Allocator + Copy> BorrowingMaker for SymbolLists<O, &'a WaveletMatrix<A>> {
    fn second(&self) -> Self {
        SymbolLists::new(self.matrix)
    }
}

impl<O: Order, A: Allocator + Copy> OwningMaker for SymbolLists<O, WaveletMatrix<A>> {
    fn second(&self) -> Result<Self, AllocError> {
        let matrix = self.matrix.clone()?;
        Ok(SymbolLists::new(matrix))
    }
}

/// An iterator over the symbols as lists of their bits. Each item is allocated, and reads at most what one
/// query does: `2k` rank calls for symbols of `k` bits.
pub type WaveletRefIter<'a, A> = MadeEnds<Lists<&'a WaveletMatrix<A>>>;

/// An iterator over the symbols of a matrix that it owns, as lists of their bits. Each item is allocated, and
/// reads at most what one query does: `2k` rank calls for symbols of `k` bits.
pub type WaveletIter<A> = MadeEnds<Lists<WaveletMatrix<A>>>;

/// An iterator over the symbols, ascending, as lists of their bits. Each item is allocated, and reads at most
/// what one query does: `2k` rank calls for symbols of `k` bits.
pub type WaveletSortedRefIter<'a, A> = MadeEnds<SortedLists<&'a WaveletMatrix<A>>>;

/// An iterator over the symbols of a matrix that it owns, ascending, as lists of their bits. Each item is
/// allocated, and reads at most what one query does: `2k` rank calls for symbols of `k` bits.
pub type WaveletSortedIter<A> = MadeEnds<SortedLists<WaveletMatrix<A>>>;

/// An iterator over the symbols as numbers. Each step reads at most what one query does: `2k` rank
/// calls for symbols of `k` bits.
pub type WaveletNumRefIter<'a, A> = BothEnds<Numbers<&'a WaveletMatrix<A>>>;

/// An iterator over the symbols of a matrix that it owns, as numbers. Each step reads at most what
/// one query does: `2k` rank calls for symbols of `k` bits.
pub type WaveletNumIter<A> = BothEnds<Numbers<WaveletMatrix<A>>>;

/// An iterator over the symbols, ascending, as numbers. Each step reads at most what one query does: `2k` rank
/// calls for symbols of `k` bits.
pub type WaveletSortedNumRefIter<'a, A> = BothEnds<SortedNumbers<&'a WaveletMatrix<A>>>;

/// An iterator over the symbols of a matrix that it owns, ascending, as numbers. Each step reads at most what
/// one query does: `2k` rank calls for symbols of `k` bits.
pub type WaveletSortedNumIter<A> = BothEnds<SortedNumbers<WaveletMatrix<A>>>;

impl<A: Allocator + Copy> WaveletMatrix<A> {
    /// Returns an iterator over the symbols, as lists of their bits.
    pub fn iter(&self) -> WaveletRefIter<'_, A> {
        MadeEnds::new(SymbolLists::new(self))
    }

    /// Returns an iterator over the symbols, ascending, as lists of their bits.
    pub fn iter_sorted(&self) -> WaveletSortedRefIter<'_, A> {
        MadeEnds::new(SymbolLists::new(self))
    }

    /// Returns an iterator over the symbols, ascending, as lists of their bits, which owns the matrix.
    pub fn into_iter_sorted(self) -> WaveletSortedIter<A> {
        MadeEnds::new(SymbolLists::new(self))
    }

    /// Returns an iterator over the symbols, as numbers. `None` if they have more than 64 bits.
    pub fn iter_u64(&self) -> Option<WaveletNumRefIter<'_, A>> {
        if !self.fits_word() {
            return None;
        }
        Some(BothEnds::new(Numbers::new(self)))
    }

    /// Returns an iterator over the symbols, as numbers, which owns the matrix. `None` if they have more than
    /// 64 bits.
    pub fn into_iter_u64(self) -> Option<WaveletNumIter<A>> {
        if !self.fits_word() {
            return None;
        }
        Some(BothEnds::new(Numbers::new(self)))
    }

    /// Returns an iterator over the symbols, ascending, as numbers. `None` if they have more than 64 bits.
    pub fn iter_sorted_u64(&self) -> Option<WaveletSortedNumRefIter<'_, A>> {
        if !self.fits_word() {
            return None;
        }
        Some(BothEnds::new(SortedNumbers::new(self)))
    }

    /// Returns an iterator over the symbols, ascending, as numbers, which owns the matrix. `None` if they have
    /// more than 64 bits.
    pub fn into_iter_sorted_u64(self) -> Option<WaveletSortedNumIter<A>> {
        if !self.fits_word() {
            return None;
        }
        Some(BothEnds::new(SortedNumbers::new(self)))
    }
}

impl<'a, A: Allocator + Copy> IntoIterator for &'a WaveletMatrix<A> {
    type Item = Result<BitVec<A>, AllocError>;

    type IntoIter = WaveletRefIter<'a, A>;

    fn into_iter(self) -> WaveletRefIter<'a, A> {
        self.iter()
    }
}

impl<'a, A: Allocator + Copy> IntoIterator for &'a mut WaveletMatrix<A> {
    type Item = Result<BitVec<A>, AllocError>;

    type IntoIter = WaveletRefIter<'a, A>;

    fn into_iter(self) -> WaveletRefIter<'a, A> {
        self.iter()
    }
}

impl<A: Allocator + Copy> IntoIterator for WaveletMatrix<A> {
    type Item = Result<BitVec<A>, AllocError>;

    type IntoIter = WaveletIter<A>;

    /// Returns an iterator over the symbols, as lists of their bits, which owns the matrix.
    fn into_iter(self) -> WaveletIter<A> {
        MadeEnds::new(SymbolLists::new(self))
    }
}
