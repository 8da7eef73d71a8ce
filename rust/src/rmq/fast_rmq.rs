//! Range minima by blocks.

use super::{bounds, minima};
use crate::contracts::contract;
use crate::error::{granted, no_range, BuildError};
use crate::proved::vers_rmq::rmq::fast_rmq as proved;
use crate::proved::vers_tally::tally::Uncounted;
use crate::rattle::Global;
use crate::reads::Tally;
use crate::saved::{LoadError, SaveError, Saved};
use std::ops::{Deref, RangeBounds};

minima! {
    /// A list of values that finds the position of a least value of any range in constant time, by blocks of 128
    /// values. It takes at most 549755813760 values, and can't change. It also has the reading calls of a [`Vec`].
    ///
    /// ```
    /// use vers_vecs::FastRmq;
    ///
    /// let values: FastRmq = (0..1000).map(|i| 1000 - i % 17).collect();
    /// assert_eq!(values.range_min(0, 999), 16);
    /// assert_eq!(values[16], 984);
    /// // Both ends belong to the range of `range_min`. Of equal values it returns the first.
    /// assert_eq!(FastRmq::from_vec(vec![2, 1, 1]).range_min(0, 2), 1);
    /// ```
    FastRmq, proved::FastRmq<Global>, proved::MAX_LEN
}

impl FastRmq {
    /// Returns the number of values.
    #[doc = contract!(FastRmq::len)]
    #[must_use]
    pub fn len(&self) -> usize {
        self.index.len()
    }

    /// Returns true if there are no values.
    #[doc = contract!(FastRmq::is_empty)]
    #[must_use]
    pub fn is_empty(&self) -> bool {
        self.index.is_empty()
    }
}
