//! Lists of bits with a rank of three reads, which the crate vers-vecs doesn't have.

use crate::bit_vec::BitVecRefIter;
use crate::contracts::contract;
use crate::error::{granted, BuildError};
use crate::items::{clones, counted, lengths, shows};
use crate::proved::word_rank as proved;
use crate::rattle::Global;
use crate::reads::Tally;
use crate::BitVec;
use std::hash::{Hash, Hasher};

/// A list of bits that counts the ones before a position, for uses in which most queries are ranks. It can't change.
///
/// A rank reads one word and two counts, and takes half of the instructions of a rank in an [`RsVec`](crate::RsVec).
/// The counts, 16 bits for each word, take about 25 % of the bits' memory instead of 5 %. It has no select, predecessor
/// or successor.
///
/// ```
/// use vers_vecs::word_rank::{BitAndRank, WordRank};
/// use vers_vecs::BitVec;
///
/// let bits = WordRank::from_bit_vec(BitVec::from_bits(&[0, 1, 1, 0, 1]));
/// assert_eq!((bits.rank1(2), bits.rank1(100)), (1, 3));
/// assert_eq!((bits.is_one(2), bits.is_one(5)), (Some(true), None));
/// assert_eq!(bits.get_and_rank1(4), Some(BitAndRank { is_one: true, ones: 2 }));
/// // the other bits before a position are the zeros
/// assert_eq!(4 - bits.rank1(4), 2);
/// ```
pub struct WordRank {
    bits: proved::WordRank<Global>,
}

/// A bit, and the number of ones before it.
#[derive(Clone, Copy, PartialEq, Eq, Hash, Debug)]
pub struct BitAndRank {
    /// True if the bit is a one.
    pub is_one: bool,
    /// The number of ones before the bit.
    pub ones: usize,
}

#[doc(hidden)]
impl From<proved::BitAndRank> for BitAndRank {
    #[inline]
    fn from(found: proved::BitAndRank) -> BitAndRank {
        BitAndRank { is_one: found.is_one, ones: found.ones }
    }
}

clones!(WordRank, bits);
shows!(WordRank, "bits", |list| list.iter());
lengths!(WordRank, bits, "bits", usize);

impl WordRank {
    /// Counts the ones of a list, whose memory it takes over, in O(`bits.len()`).
    #[doc = contract!(WordRank::from_bit_vec)]
    #[must_use]
    #[track_caller]
    pub fn from_bit_vec(bits: BitVec) -> WordRank {
        granted(WordRank::try_from_bit_vec(bits))
    }

    /// Counts the ones of a list as [`from_bit_vec`](Self::from_bit_vec) does.
    ///
    /// # Errors
    /// `OutOfMemory` if the allocation of the counts fails.
    #[doc = contract!(WordRank::from_bit_vec)]
    pub fn try_from_bit_vec(bits: BitVec) -> Result<WordRank, BuildError> {
        Ok(WordRank { bits: proved::WordRank::from_bit_vec(bits.bits)? })
    }

    /// Returns a copy of the bits.
    #[doc = contract!(WordRank::bits)]
    #[must_use]
    #[track_caller]
    pub fn to_bit_vec(&self) -> BitVec {
        granted(crate::rattle::Clone::clone(self.bits.bits())).into()
    }

    /// Iterates over the bits in order, from both ends.
    #[doc = contract!(BitVec::iter)]
    #[inline]
    pub fn iter(&self) -> BitVecRefIter<'_> {
        BitVecRefIter(self.bits.bits().iter())
    }

    /// Returns the number of ones before `position`, or in the whole list past the end, in O(1).
    #[doc = contract!(WordRank::rank1)]
    #[must_use]
    #[inline]
    pub fn rank1(&self, position: usize) -> usize {
        self.bits.rank1(position)
    }

    /// Returns true if the bit at `position` is a one. `None` past the end.
    #[doc = contract!(WordRank::is_one)]
    #[must_use]
    #[inline]
    pub fn is_one(&self, position: usize) -> Option<bool> {
        (position < self.len()).then(|| self.bits.is_one(position))
    }

    /// Does the same as [`is_one`](Self::is_one), and adds the reads to `tally`.
    #[doc = contract!(WordRank::is_one_counted)]
    #[inline]
    pub fn is_one_counted(&self, position: usize, tally: &mut Tally) -> Option<bool> {
        (position < self.len()).then(|| self.bits.is_one_counted(position, &mut tally.0))
    }

    /// Returns the bit at `position`, and the number of ones before it, by one read of the word. `None` past the end.
    #[doc = contract!(WordRank::get_and_rank1)]
    #[must_use]
    #[inline]
    pub fn get_and_rank1(&self, position: usize) -> Option<BitAndRank> {
        (position < self.len()).then(|| self.bits.get_and_rank1(position).into())
    }

    /// Does the same as [`get_and_rank1`](Self::get_and_rank1), and adds the reads to `tally`.
    #[doc = contract!(WordRank::get_and_rank1_counted)]
    #[inline]
    pub fn get_and_rank1_counted(&self, position: usize, tally: &mut Tally) -> Option<BitAndRank> {
        (position < self.len()).then(|| self.bits.get_and_rank1_counted(position, &mut tally.0).into())
    }
}

counted! { WordRank, bits:
    rank1_counted, rank1(position: usize) -> usize;
}

impl Default for WordRank {
    fn default() -> Self {
        WordRank::from_bit_vec(BitVec::new())
    }
}

impl PartialEq for WordRank {
    fn eq(&self, other: &Self) -> bool {
        self.bits.bits() == other.bits.bits()
    }
}

impl Eq for WordRank {}

impl Hash for WordRank {
    fn hash<H: Hasher>(&self, state: &mut H) {
        self.bits.bits().hash(state);
    }
}

impl<'a> IntoIterator for &'a WordRank {
    type Item = u64;
    type IntoIter = BitVecRefIter<'a>;

    fn into_iter(self) -> BitVecRefIter<'a> {
        self.iter()
    }
}

impl From<BitVec> for WordRank {
    fn from(bits: BitVec) -> Self {
        WordRank::from_bit_vec(bits)
    }
}

impl FromIterator<bool> for WordRank {
    /// Counts the ones of a list with a one for each `true`.
    fn from_iter<T: IntoIterator<Item = bool>>(iter: T) -> Self {
        WordRank::from_bit_vec(BitVec::from_bool_iter(iter))
    }
}
