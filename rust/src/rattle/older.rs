//! What the oldest rustc that compiles this crate lacks. A newer one has the first four as methods of its own, and takes those.

#[cfg(test)]
use super::reads::{note, Way};
use core::ops::Index;
#[cfg(test)]
use core::panic::Location;

/// Quotients that are rounded up.
pub trait CeilingQuotient {
    /// Returns the quotient, rounded up.
    #[must_use]
    fn div_ceil(self, divisor: Self) -> Self;
}

macro_rules! ceiling_quotients {
    ($($number:ty),*) => {
        $(impl CeilingQuotient for $number {
            #[inline(always)]
            fn div_ceil(self, divisor: Self) -> Self {
                self / divisor + <$number>::from(self % divisor > 0)
            }
        })*
    };
}

ceiling_quotients!(usize, u64);

/// Numbers whose bits are also those of a number with a sign.
pub trait CastSigned {
    /// Returns the number with a sign that has the same bits.
    #[must_use]
    fn cast_signed(self) -> i64;
}

impl CastSigned for u64 {
    #[inline(always)]
    fn cast_signed(self) -> i64 {
        self as i64
    }
}

/// Numbers whose bits are also those of a number without a sign.
pub trait CastUnsigned {
    /// Returns the number without a sign that has the same bits.
    #[must_use]
    fn cast_unsigned(self) -> u64;
}

impl CastUnsigned for i64 {
    #[inline(always)]
    fn cast_unsigned(self) -> u64 {
        self as u64
    }
}

/// Slices in order.
pub trait InOrder<T> {
    /// Returns whether each two neighbours are in order.
    fn is_sorted_by<'a>(&'a self, is_in_order: impl FnMut(&'a T, &'a T) -> bool) -> bool
    where
        T: 'a;
}

impl<T> InOrder<T> for [T] {
    #[inline]
    fn is_sorted_by<'a>(&'a self, mut is_in_order: impl FnMut(&'a T, &'a T) -> bool) -> bool
    where
        T: 'a,
    {
        self.windows(2).all(|pair| is_in_order(&pair[0], &pair[1]))
    }
}

/// A slice of arrays, over a slice of their items.
#[derive(Debug)]
pub struct Arrays<'a, T, const N: usize>(&'a [T]);

impl<T, const N: usize> Clone for Arrays<'_, T, N> {
    fn clone(&self) -> Self {
        *self
    }
}

impl<T, const N: usize> Copy for Arrays<'_, T, N> {}

/// Slices as slices of arrays.
pub trait AsArrays<T> {
    /// Returns the arrays of `N` items that the slice begins with, and the items after the last of them.
    fn as_arrays<const N: usize>(&self) -> (Arrays<'_, T, N>, &[T]);
}

impl<T> AsArrays<T> for [T] {
    #[inline(always)]
    #[cfg_attr(test, track_caller)]
    fn as_arrays<const N: usize>(&self) -> (Arrays<'_, T, N>, &[T]) {
        #[cfg(test)]
        note(self.as_ptr(), self.as_ptr(), N, Way::Split, Location::caller());
        let (arrays, end) = self.split_at(self.len() / N * N);
        (Arrays(arrays), end)
    }
}

impl<'a, T, const N: usize> Arrays<'a, T, N> {
    /// Returns the number of arrays.
    #[inline(always)]
    pub fn len(self) -> usize {
        self.0.len() / N
    }

    /// Returns an array, for as long as the items are borrowed.
    #[inline(always)]
    #[cfg_attr(test, track_caller)]
    pub fn at(self, k: usize) -> &'a [T; N] {
        let found = &self.0[k * N..(k + 1) * N];
        #[cfg(test)]
        note(self.0.as_ptr(), found.as_ptr(), N, Way::Array, Location::caller());
        array_of(found)
    }

    /// Returns an array, for as long as the items are borrowed, or `None` if there are no more.
    #[inline(always)]
    #[cfg_attr(test, track_caller)]
    pub fn get(self, k: usize) -> Option<&'a [T; N]> {
        let start = k.checked_mul(N)?;
        if start >= self.0.len() {
            return None;
        }
        let found = &self.0[start..start + N];
        #[cfg(test)]
        note(self.0.as_ptr(), found.as_ptr(), N, Way::Array, Location::caller());
        Some(array_of(found))
    }

    /// Returns the arrays, in order.
    #[inline(always)]
    pub fn iter(self) -> ArraysIter<'a, T, N> {
        ArraysIter(self.0.chunks_exact(N))
    }
}

/// Returns the array that a slice of its length is.
#[inline(always)]
fn array_of<T, const N: usize>(items: &[T]) -> &[T; N] {
    match items.try_into() {
        Ok(items) => items,
        Err(_) => unreachable!(),
    }
}

impl<T, const N: usize> Index<usize> for Arrays<'_, T, N> {
    type Output = [T; N];

    #[inline(always)]
    fn index(&self, k: usize) -> &[T; N] {
        self.at(k)
    }
}

/// The arrays of a slice of them, in order.
pub struct ArraysIter<'a, T, const N: usize>(core::slice::ChunksExact<'a, T>);

impl<'a, T, const N: usize> Iterator for ArraysIter<'a, T, N> {
    type Item = &'a [T; N];

    #[inline(always)]
    fn next(&mut self) -> Option<&'a [T; N]> {
        self.0.next().map(array_of)
    }

    #[inline(always)]
    fn size_hint(&self) -> (usize, Option<usize>) {
        self.0.size_hint()
    }
}

impl<'a, T, const N: usize> IntoIterator for Arrays<'a, T, N> {
    type Item = &'a [T; N];
    type IntoIter = ArraysIter<'a, T, N>;

    #[inline(always)]
    fn into_iter(self) -> Self::IntoIter {
        self.iter()
    }
}
