//! Counters of what a query reads.

use crate::proved::vers_tally::tally as proved;
use std::fmt;

/// Counts the entries that queries read, by kind.
///
/// The calls whose names end in `_counted` add to a tally. Their contracts bound what they add, so the worst case of a
/// query can be checked on any input. A counter doesn't exceed `u64::MAX`.
///
/// ```
/// use vers_vecs::reads::Tally;
/// use vers_vecs::{BitVec, RsVec};
///
/// let bits = RsVec::from_bit_vec(BitVec::from_ones(100_000));
/// let mut tally = Tally::new();
/// assert_eq!(bits.rank1_counted(77_777, &mut tally), 77_777);
/// assert!(tally.data_words() <= 8 && tally.block_entries() == 1);
/// assert_eq!(tally.rank_calls(), 1);
/// ```
pub struct Tally(pub(crate) proved::Tally);

impl Tally {
    /// Makes a tally of no reads.
    #[must_use]
    #[inline]
    pub fn new() -> Tally {
        Tally(proved::Tally::new())
    }
}

macro_rules! counters {
    ($($(#[$doc:meta])* $name:ident;)*) => {
        impl Tally {
            $(
                $(#[$doc])*
                #[doc = crate::contracts::contract!(Tally::$name)]
                #[must_use]
                #[inline]
                pub fn $name(&self) -> u64 {
                    self.0.$name()
                }
            )*
        }

        impl fmt::Debug for Tally {
            fn fmt(&self, f: &mut fmt::Formatter<'_>) -> fmt::Result {
                f.debug_struct("Tally")$(.field(stringify!($name), &self.$name()))*.finish()
            }
        }
    };
}

counters! {
    /// Returns how many words of 64 bits were read from lists of bits.
    data_words;
    /// Returns how many entries of blocks of 512 bits were read.
    block_entries;
    /// Returns how many entries of superblocks of 8192 bits were read, select samples included.
    superblock_entries;
    /// Returns how many low parts of elements of ascending lists were read.
    low_parts;
    /// Returns how many rank and select queries were made of lists of bits.
    rank_calls;
    /// Returns how many values of range minima were read.
    items;
    /// Returns how many blocks of parentheses were searched.
    blocks;
    /// Returns how many nodes of a tree's range min-max tree were read.
    nodes;
    /// Returns how many chunks of 16 bits were read.
    chunks;
}

impl Default for Tally {
    fn default() -> Tally {
        Tally::new()
    }
}
