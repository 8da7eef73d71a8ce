//! The position of the least value of any range.

use std::ops::{Bound, RangeBounds};

pub mod binary_rmq;
pub mod fast_rmq;

/// Returns the first and the last position of a range in a list of `len` values. An end past that of the list means the
/// last position.
#[track_caller]
fn bounds(range: impl RangeBounds<usize>, len: usize) -> (usize, usize) {
    assert!(len > 0, "there are no values");
    let first = match range.start_bound() {
        Bound::Included(&position) => position,
        Bound::Excluded(&position) => position.saturating_add(1),
        Bound::Unbounded => 0,
    };
    let last = match range.end_bound() {
        Bound::Included(&position) => position,
        Bound::Excluded(&position) => position.checked_sub(1).expect("the range to position 0 is empty"),
        Bound::Unbounded => len - 1,
    };
    (first.min(len - 1), last.min(len - 1))
}

/// The type of a list of values with its calls, which differ only in the build.
macro_rules! minima {
    ($(#[$doc:meta])* $name:ident, $proved:ty, $most:path) => {
        $(#[$doc])*
        pub struct $name {
            index: $proved,
        }

        impl $name {
            #[inline(always)]
            fn values(&self) -> &Vec<u64> {
                self.index.items(Uncounted).as_plain()
            }

            /// Returns the number of bytes on the heap.
            #[doc = contract!($name::heap_size)]
            #[must_use]
            pub fn heap_size(&self) -> usize {
                self.index.heap_size()
            }

            /// Indexes some values, in O(`items.len()`).
            ///
            /// # Panics
            /// If there are too many.
            #[doc = contract!($name::from_vec)]
            #[must_use]
            #[track_caller]
            pub fn from_vec(items: Vec<u64>) -> Self {
                granted(Self::try_from_vec(items))
            }

            /// Indexes some values, in O(`items.len()`).
            ///
            /// # Errors
            /// `TooLong` if there are too many, and `OutOfMemory`.
            #[doc = contract!($name::from_vec)]
            pub fn try_from_vec(items: Vec<u64>) -> Result<Self, BuildError> {
                if items.len() > $most {
                    return Err(BuildError::TooLong);
                }
                Ok($name { index: <$proved>::from_vec(crate::rattle::Vec::from_plain(items, Global))? })
            }

            /// Returns the first position of a least value of a range, in O(1). A bound past the end means the last
            /// position, so a range that begins there has that position, even if it is empty or reversed.
            ///
            /// # Panics
            /// If there are no values, or the range is empty.
            #[must_use]
            #[track_caller]
            pub fn range_min_with_range<T: RangeBounds<usize>>(&self, range: T) -> usize {
                let (first, last) = bounds(range, self.index.len());
                self.range_min(first, last)
            }

            /// Returns the first position of a least value from position `i` to position `j`, both included, in O(1).
            ///
            /// # Panics
            /// If `i` is above `j`, or `j` is past the end.
            #[doc = contract!($name::range_min)]
            #[must_use]
            #[inline]
            #[track_caller]
            pub fn range_min(&self, i: usize, j: usize) -> usize {
                if i > j || j >= self.index.len() {
                    no_range(i, j);
                }
                self.index.range_min(i, j)
            }

            /// Does the same as [`range_min`](Self::range_min), and adds the reads to `tally`.
            ///
            /// # Panics
            /// If `i` is above `j`, or `j` is past the end.
            #[doc = contract!($name::range_min_counted)]
            #[inline]
            #[track_caller]
            pub fn range_min_counted(&self, i: usize, j: usize, tally: &mut Tally) -> usize {
                if i > j || j >= self.index.len() {
                    no_range(i, j);
                }
                self.index.range_min_counted(i, j, &mut tally.0)
            }

            /// Does the same as [`range_min_with_range`](Self::range_min_with_range), and adds the reads to `tally`.
            ///
            /// # Panics
            /// If there are no values, or the range is empty.
            #[track_caller]
            pub fn range_min_with_range_counted<T: RangeBounds<usize>>(&self, range: T, tally: &mut Tally) -> usize {
                let (first, last) = bounds(range, self.index.len());
                self.range_min_counted(first, last, tally)
            }
        }

        impl Clone for $name {
            #[track_caller]
            fn clone(&self) -> Self {
                $name { index: granted(crate::rattle::Clone::clone(&self.index)) }
            }
        }

        impl Saved for $name {
            fn save(&self) -> Result<Vec<u8>, SaveError> {
                crate::saved::bytes_of(&self.index)
            }

            fn load(bytes: &[u8]) -> Result<Self, LoadError> {
                Ok($name { index: crate::saved::loaded(bytes)? })
            }
        }

        crate::items::shows!($name, "values", |list| list.iter());

        impl Deref for $name {
            type Target = Vec<u64>;

            /// Returns the values.
            #[inline]
            fn deref(&self) -> &Vec<u64> {
                self.values()
            }
        }

        impl PartialEq for $name {
            fn eq(&self, other: &Self) -> bool {
                self.values() == other.values()
            }
        }

        impl Eq for $name {}

        impl std::hash::Hash for $name {
            fn hash<H: std::hash::Hasher>(&self, state: &mut H) {
                self.values().hash(state);
            }
        }

        impl Default for $name {
            fn default() -> Self {
                Self::from_vec(Vec::new())
            }
        }

        impl From<Vec<u64>> for $name {
            fn from(items: Vec<u64>) -> Self {
                Self::from_vec(items)
            }
        }

        impl From<&[u64]> for $name {
            fn from(items: &[u64]) -> Self {
                Self::from_vec(items.to_vec())
            }
        }

        impl From<$name> for Vec<u64> {
            fn from(list: $name) -> Vec<u64> {
                list.values().clone()
            }
        }

        impl FromIterator<u64> for $name {
            fn from_iter<T: IntoIterator<Item = u64>>(iter: T) -> Self {
                Self::from_vec(iter.into_iter().collect())
            }
        }

        impl IntoIterator for $name {
            type Item = u64;
            type IntoIter = std::vec::IntoIter<u64>;

            fn into_iter(self) -> Self::IntoIter {
                Vec::from(self).into_iter()
            }
        }

        impl<'a> IntoIterator for &'a $name {
            type Item = &'a u64;
            type IntoIter = std::slice::Iter<'a, u64>;

            fn into_iter(self) -> Self::IntoIter {
                self.values().iter()
            }
        }
    };
}

use minima;
