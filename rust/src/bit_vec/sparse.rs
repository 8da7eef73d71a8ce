//! Long lists of bits with few ones.

use crate::contracts::contract;
use crate::error::{granted, BuildError};
use crate::items::{check_ascending, clones, compares, counted, counted_iterator, iterator, lengths};
use crate::proved::vers_sorted::order::{are_below, is_strictly_ascending};
use crate::proved::vers_sorted::sparse as proved;
use crate::rattle::Global;
use crate::saved::saved;
use crate::BitVec;

/// A list of bits that stores only the positions of its ones, as an ascending list. Its memory depends mostly on the
/// number of ones, and little on the length. It can't change.
///
/// ```
/// use vers_vecs::SparseRSVec;
///
/// let bits = SparseRSVec::new(&[3, 70, 1 << 40], 1 << 41);
/// assert_eq!(bits.get(70), Some(1));
/// assert_eq!(bits.rank1(1000), 2);
/// assert_eq!(bits.select1(2), 1 << 40);
/// // `From<BitVec>` stores the zeros, as in vers-vecs. `from_bitvec` stores the ones.
/// let list = vers_vecs::BitVec::from_bits(&[0, 1, 1]);
/// assert_eq!(SparseRSVec::from(&list).get(0), Some(1));
/// assert_eq!(SparseRSVec::from_bitvec(&list).get(0), Some(0));
/// ```
pub struct SparseRSVec {
    bits: proved::SparseRSVec<Global>,
}

clones!(SparseRSVec, bits);
compares!(SparseRSVec, |list| list.iter1());
lengths!(SparseRSVec, bits, "bits", u64);
saved!(SparseRSVec, bits);

/// Constructors.
impl SparseRSVec {
    /// Makes a list of `len` bits with ones at the positions `ones`, in O(`ones.len()`).
    ///
    /// # Panics
    /// If a position isn't above the one before it, or not below `len`.
    #[doc = contract!(SparseRSVec::new)]
    #[must_use]
    #[track_caller]
    pub fn new(ones: &[u64], len: u64) -> Self {
        granted(Self::try_new(ones, len))
    }

    /// Makes a list of `len` bits with ones at the positions `ones`, in O(`ones.len()`).
    ///
    /// # Errors
    /// `NotAscending` if a position isn't above the one before it, `OutOfRange` if one isn't below `len`, and
    /// `OutOfMemory`.
    #[doc = contract!(SparseRSVec::new)]
    pub fn try_new(ones: &[u64], len: u64) -> Result<Self, BuildError> {
        if is_strictly_ascending(ones) && are_below(ones, len) {
            return Ok(SparseRSVec { bits: proved::SparseRSVec::new(Global, ones, len)? });
        }
        check_ascending(ones, |one, next| one < next)?;
        Err(BuildError::OutOfRange { position: ones.iter().take_while(|&&position| position < len).count() })
    }

    /// Copies the bits of a list.
    #[doc = contract!(SparseRSVec::from_bitvec)]
    #[must_use]
    #[track_caller]
    pub fn from_bitvec(bits: &BitVec) -> Self {
        SparseRSVec { bits: granted(proved::SparseRSVec::from_bitvec(&bits.bits)) }
    }

    /// Copies the bits of a list, each inverted: for lists with few zeros.
    #[doc = contract!(SparseRSVec::from_bitvec_inverted)]
    #[must_use]
    #[track_caller]
    pub fn from_bitvec_inverted(bits: &BitVec) -> Self {
        SparseRSVec { bits: granted(proved::SparseRSVec::from_bitvec_inverted(&bits.bits)) }
    }
}

/// Queries. A rank or a bit takes O(log `len`) at worst.
impl SparseRSVec {
    /// Returns true if the bit at `position` is a one, and false past the end.
    #[doc = contract!(SparseRSVec::is_set)]
    #[must_use]
    pub fn is_set_unchecked(&self, position: u64) -> bool {
        self.bits.is_set(position).unwrap_or(false)
    }

    /// Returns true if the bit at `position` is a one, or `None` past the end.
    #[doc = contract!(SparseRSVec::is_set)]
    #[must_use]
    #[inline]
    pub fn is_set(&self, position: u64) -> Option<bool> {
        self.bits.is_set(position)
    }

    /// Returns the bit at `position`, or 0 past the end.
    #[doc = contract!(SparseRSVec::get)]
    #[must_use]
    #[inline]
    pub fn get_unchecked(&self, position: u64) -> u64 {
        self.bits.get(position).unwrap_or(0)
    }

    /// Returns the bit at `position`, or `None` past the end.
    #[doc = contract!(SparseRSVec::get)]
    #[must_use]
    #[inline]
    pub fn get(&self, position: u64) -> Option<u64> {
        self.bits.get(position)
    }

    /// Returns the position of the `r`-th one, from 0, or the length if there is none.
    #[doc = contract!(SparseRSVec::select1)]
    #[must_use]
    #[inline]
    pub fn select1(&self, r: usize) -> u64 {
        self.bits.select1(r)
    }

    /// Returns the number of ones before `position`, or in the whole list past the end.
    #[doc = contract!(SparseRSVec::rank1)]
    #[must_use]
    #[inline]
    pub fn rank1(&self, position: u64) -> u64 {
        self.bits.rank1(position)
    }

    /// Returns the number of zeros before `position`, or in the whole list past the end.
    #[doc = contract!(SparseRSVec::rank0)]
    #[must_use]
    #[inline]
    pub fn rank0(&self, position: u64) -> u64 {
        self.bits.rank0(position)
    }

    /// Iterates over the positions of the ones.
    #[doc = contract!(SparseRSVec::iter1)]
    pub fn iter1(&self) -> SparseIter<'_> {
        SparseIter(self.bits.iter1())
    }
}

counted! { SparseRSVec, bits:
    is_set_counted, is_set(position: u64) -> Option<bool>;
    get_counted, get(position: u64) -> Option<u64>;
    select1_counted, select1(r: usize) -> u64;
    rank1_counted, rank1(position: u64) -> u64;
    rank0_counted, rank0(position: u64) -> u64;
}

iterator! {
    /// Iterates over the positions of the ones of a [`SparseRSVec`]. They ascend.
    SparseIter ['a] ['a] = crate::proved::vers_sorted::elias_fano::EliasFanoRefIter<'a, Global>, u64, |it| it.clone(),
    ascending |it| it.min(), |it| it.max()
}

counted_iterator! { SparseIter ['a] ['a], u64 }

impl std::fmt::Debug for SparseRSVec {
    fn fmt(&self, f: &mut std::fmt::Formatter<'_>) -> std::fmt::Result {
        crate::items::show(f, "SparseRSVec", "ones", self.len(), self.iter1())
    }
}

impl Default for SparseRSVec {
    fn default() -> Self {
        SparseRSVec::new(&[], 0)
    }
}

impl From<BitVec> for SparseRSVec {
    /// Stores the zeros: the same as [`from_bitvec_inverted`](SparseRSVec::from_bitvec_inverted).
    fn from(bits: BitVec) -> Self {
        Self::from_bitvec_inverted(&bits)
    }
}

impl<'a> From<&'a BitVec> for SparseRSVec {
    /// Stores the zeros: the same as [`from_bitvec_inverted`](SparseRSVec::from_bitvec_inverted).
    fn from(bits: &'a BitVec) -> Self {
        Self::from_bitvec_inverted(bits)
    }
}
