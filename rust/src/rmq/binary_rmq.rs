//! Range minima by a table.

use super::{bounds, minima};
use crate::contracts::contract;
use crate::error::{granted, no_range, BuildError};
use crate::proved::vers_rmq::rmq::binary_rmq as proved;
use crate::proved::vers_tally::tally::Uncounted;
use crate::rattle::Global;
use crate::reads::Tally;
use crate::saved::{LoadError, SaveError, Saved};
use std::ops::{Deref, RangeBounds};

minima! {
    /// A list of values that finds the position of a least value of any range in constant time, by a table of four
    /// bytes for each value and power of two. It takes at most `u32::MAX` values, and can't change. It also has the
    /// reading calls of a [`Vec`].
    ///
    /// ```
    /// use vers_vecs::BinaryRmq;
    ///
    /// let values = BinaryRmq::from_vec(vec![5, 3, 8, 3]);
    /// assert_eq!(values.range_min(0, 3), 1);
    /// assert_eq!(values.range_min_with_range(2..), 3);
    /// ```
    BinaryRmq, proved::BinaryRmq<Global>, proved::MAX_LEN
}

/// A value with its position.
#[derive(Clone, Copy, PartialEq, Eq, Hash, Debug)]
pub struct PlacedItem {
    /// The position of the value.
    pub position: usize,
    /// The value.
    pub value: u64,
}

/// Least values with their positions.
impl BinaryRmq {
    /// Returns a least value from position `i` to position `j`, both included, with its first position, in O(1).
    ///
    /// # Panics
    /// If `i` is above `j`, or `j` is past the end.
    #[doc = contract!(BinaryRmq::range_min_item)]
    #[must_use]
    #[inline]
    #[track_caller]
    pub fn range_min_item(&self, i: usize, j: usize) -> PlacedItem {
        if i > j || j >= self.index.len() {
            no_range(i, j);
        }
        let found = self.index.range_min_item(i, j);
        PlacedItem { position: found.position, value: found.value }
    }

    /// Does the same as [`range_min_item`](Self::range_min_item), and adds the reads to `tally`.
    ///
    /// # Panics
    /// If `i` is above `j`, or `j` is past the end.
    #[doc = contract!(BinaryRmq::range_min_item_counted)]
    #[inline]
    #[track_caller]
    pub fn range_min_item_counted(&self, i: usize, j: usize, tally: &mut Tally) -> PlacedItem {
        if i > j || j >= self.index.len() {
            no_range(i, j);
        }
        let found = self.index.range_min_item_counted(i, j, &mut tally.0);
        PlacedItem { position: found.position, value: found.value }
    }

    /// Returns the value at `position`, and adds the reads to `tally`.
    ///
    /// # Panics
    /// If `position` is past the end.
    #[doc = contract!(BinaryRmq::item_counted)]
    #[inline]
    #[track_caller]
    pub fn item_counted(&self, position: usize, tally: &mut Tally) -> u64 {
        assert!(position < self.index.len(), "the list has no value at {}", position);
        self.index.item_counted(position, &mut tally.0)
    }
}
