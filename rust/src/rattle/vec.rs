//! Lists of items whose growth can be refused.

#[cfg(test)]
use super::reads::{note, Way};
use super::{AllocError, AllocFailed, Allocator, Clone, Global};
use core::mem::size_of;
use core::ops::{Deref, DerefMut, Index, IndexMut};
#[cfg(test)]
use core::panic::Location;
use core::slice::SliceIndex;

/// A list of items. What takes memory says so, and may be refused.
#[derive(Debug)]
pub struct Vec<T, A: Allocator = Global> {
    items: std::vec::Vec<T>,
    alloc: A,
}

impl<T, A: Allocator> Vec<T, A> {
    /// The empty list, which takes no memory.
    #[inline]
    pub fn new(alloc: A) -> Self {
        Vec { items: std::vec::Vec::new(), alloc }
    }

    /// The empty list, with room for `n` items.
    #[inline]
    pub fn with_capacity(alloc: A, n: usize) -> Result<Self, AllocError> {
        let mut list = Vec::new(alloc);
        list.reserve_exact(n)?;
        Ok(list)
    }

    /// The items of a list of Rust's own.
    #[inline]
    pub fn from_plain(items: std::vec::Vec<T>, alloc: A) -> Self {
        Vec { items, alloc }
    }

    /// The items, as a list of Rust's own.
    #[inline(always)]
    pub fn as_plain(&self) -> &std::vec::Vec<T> {
        &self.items
    }

    /// The items, as a list of Rust's own, which takes over the memory.
    #[inline]
    pub fn into_plain(mut self) -> std::vec::Vec<T> {
        core::mem::take(&mut self.items)
    }

    /// The allocator.
    #[inline]
    pub fn allocator(&self) -> &A {
        &self.alloc
    }

    /// How many items there are.
    #[inline]
    pub fn len(&self) -> usize {
        self.items.len()
    }

    /// How many items there is room for.
    #[inline]
    pub fn capacity(&self) -> usize {
        self.items.capacity()
    }

    /// Whether there are no items.
    #[inline]
    pub fn is_empty(&self) -> bool {
        self.items.is_empty()
    }

    /// All items.
    #[inline]
    #[cfg_attr(test, track_caller)]
    pub fn as_slice(&self) -> &[T] {
        self.handed()
    }

    /// All items. Tests note them.
    #[inline(always)]
    #[cfg_attr(test, track_caller)]
    fn handed(&self) -> &[T] {
        #[cfg(test)]
        note(self.items.as_ptr(), self.items.as_ptr(), self.items.len(), Way::Handed, Location::caller());
        &self.items
    }

    /// All items, to be changed.
    #[inline]
    pub fn as_mut_slice(&mut self) -> &mut [T] {
        &mut self.items
    }

    /// Makes room for `capacity` items in all, which are more than there is room for.
    #[cold]
    #[inline(never)]
    fn grow(&mut self, capacity: usize) -> Result<(), AllocError> {
        let bytes = capacity.checked_mul(size_of::<T>()).ok_or(AllocError)?;
        let held = self.bytes();
        self.alloc.request(bytes)?;
        if self.items.try_reserve_exact(capacity - self.items.len()).is_err() {
            self.alloc.release(bytes);
            return Err(AllocError);
        }
        if held > 0 {
            self.alloc.release(held);
        }
        #[cfg(test)]
        note(self.items.as_ptr(), self.items.as_ptr(), 0, Way::Made, Location::caller());
        Ok(())
    }

    /// How many bytes the room takes.
    #[inline]
    fn bytes(&self) -> usize {
        self.items.capacity().wrapping_mul(size_of::<T>())
    }

    /// Makes room for `n` items more.
    #[inline]
    pub fn reserve(&mut self, n: usize) -> Result<(), AllocError> {
        if n <= self.items.capacity() - self.items.len() {
            return Ok(());
        }
        let wanted = self.items.len().checked_add(n).ok_or(AllocError)?;
        self.grow(wanted.max(self.items.capacity().saturating_mul(2)).max(4))
    }

    /// Makes room for `n` items more, and for no others where there wasn't.
    #[inline]
    pub fn reserve_exact(&mut self, n: usize) -> Result<(), AllocError> {
        if n <= self.items.capacity() - self.items.len() {
            return Ok(());
        }
        self.grow(self.items.len().checked_add(n).ok_or(AllocError)?)
    }

    /// Puts an item behind the others, or hands it back.
    #[inline]
    pub fn push(&mut self, item: T) -> Result<(), AllocFailed<T>> {
        if self.items.len() == self.items.capacity() && self.reserve(1).is_err() {
            return Err(AllocFailed(item));
        }
        self.items.push(item);
        Ok(())
    }

    /// Puts an item behind the others, which there is room for. With the test the compiler leaves out a growth, whose call
    /// would cost a loop its registers.
    #[inline(always)]
    pub fn push_reserved(&mut self, item: T) {
        assert!(self.items.len() < self.items.capacity());
        self.items.push(item);
    }

    /// Puts the items of an iterator behind the others.
    #[inline]
    pub fn extend<I: Iterator<Item = T>>(&mut self, items: I) -> Result<(), AllocError> {
        self.reserve(items.size_hint().0)?;
        for item in items {
            self.push(item)?;
        }
        Ok(())
    }

    /// The items of an array.
    #[inline]
    pub fn from_array<const N: usize>(alloc: A, items: [T; N]) -> Result<Self, AllocError> {
        let mut list = Vec::with_capacity(alloc, N)?;
        list.items.extend(items);
        Ok(list)
    }

    /// Takes the last item off.
    #[inline]
    pub fn pop(&mut self) -> Option<T> {
        self.items.pop()
    }

    /// Keeps the first `n` items.
    #[inline]
    pub fn truncate(&mut self, n: usize) {
        self.items.truncate(n);
    }

    /// Keeps room for `n` items, and for those that there are. The room stays as it is if the allocator refuses.
    #[cfg(any(mutants, programs))]
    pub fn shrink_to(&mut self, n: usize) {
        let (held, kept) = (self.bytes(), self.items.len().max(n) * size_of::<T>());
        if held > kept && (kept == 0 || self.alloc.request(kept).is_ok()) {
            self.items.shrink_to(n);
            self.alloc.release(held);
        }
    }

    /// Takes all items off.
    #[inline]
    pub fn clear(&mut self) {
        self.items.clear();
    }
}

impl<T: Copy, A: Allocator> Vec<T, A> {
    /// The items of a slice.
    #[inline]
    pub fn from_slice(alloc: A, items: &[T]) -> Result<Self, AllocError> {
        let mut list = Vec::with_capacity(alloc, items.len())?;
        list.items.extend_from_slice(items);
        Ok(list)
    }

    /// `n` equal items.
    #[inline]
    pub fn from_elem(alloc: A, item: T, n: usize) -> Result<Self, AllocError> {
        let mut list = Vec::with_capacity(alloc, n)?;
        list.items.resize(n, item);
        Ok(list)
    }

    /// Keeps the first `n` items, or puts equal ones behind them.
    #[inline]
    pub fn resize(&mut self, n: usize, item: T) -> Result<(), AllocError> {
        self.reserve(n.saturating_sub(self.items.len()))?;
        self.items.resize(n, item);
        Ok(())
    }

    /// Puts the items of a slice behind the others.
    #[inline]
    pub fn extend_from_slice(&mut self, items: &[T]) -> Result<(), AllocError> {
        self.reserve(items.len())?;
        self.items.extend_from_slice(items);
        Ok(())
    }
}

impl<T, A: Allocator> Drop for Vec<T, A> {
    #[inline]
    fn drop(&mut self) {
        if self.bytes() > 0 {
            self.alloc.release(self.bytes());
        }
    }
}

/// The items of a list, which it owns.
pub struct IntoIter<T, A: Allocator> {
    items: std::vec::IntoIter<T>,
    alloc: A,
    bytes: usize,
}

impl<T, A: Allocator> Iterator for IntoIter<T, A> {
    type Item = T;

    fn next(&mut self) -> Option<T> {
        self.items.next()
    }

    fn size_hint(&self) -> (usize, Option<usize>) {
        self.items.size_hint()
    }
}

impl<T, A: Allocator> ExactSizeIterator for IntoIter<T, A> {}

impl<T, A: Allocator> Drop for IntoIter<T, A> {
    fn drop(&mut self) {
        if self.bytes > 0 {
            self.alloc.release(self.bytes);
        }
    }
}

impl<T, A: Allocator + Copy> IntoIterator for Vec<T, A> {
    type Item = T;
    type IntoIter = IntoIter<T, A>;

    fn into_iter(mut self) -> IntoIter<T, A> {
        let (bytes, alloc) = (self.bytes(), self.alloc);
        IntoIter { items: core::mem::take(&mut self.items).into_iter(), alloc, bytes }
    }
}

impl<A: Allocator> std::io::Write for Vec<u8, A> {
    fn write(&mut self, buf: &[u8]) -> std::io::Result<usize> {
        self.extend_from_slice(buf).map_err(|_| std::io::Error::from(std::io::ErrorKind::OutOfMemory))?;
        Ok(buf.len())
    }

    fn flush(&mut self) -> std::io::Result<()> {
        Ok(())
    }
}

impl<'a, T, A: Allocator> IntoIterator for &'a Vec<T, A> {
    type Item = &'a T;
    type IntoIter = core::slice::Iter<'a, T>;

    #[cfg_attr(test, track_caller)]
    fn into_iter(self) -> Self::IntoIter {
        self.handed().iter()
    }
}

impl<T: Clone, A: Allocator + Copy> Clone for Vec<T, A> {
    #[inline]
    fn clone(&self) -> Result<Self, AllocError> {
        let mut list = Vec::with_capacity(self.alloc, self.items.len())?;
        for item in &self.items {
            list.items.push(item.clone()?);
        }
        Ok(list)
    }
}

impl<T, A: Allocator> Deref for Vec<T, A> {
    type Target = [T];

    #[inline(always)]
    #[cfg_attr(test, track_caller)]
    fn deref(&self) -> &[T] {
        self.handed()
    }
}

impl<T, A: Allocator> DerefMut for Vec<T, A> {
    #[inline(always)]
    fn deref_mut(&mut self) -> &mut [T] {
        &mut self.items
    }
}

/// Panics. One function without arguments, so that the compiler can join the tests of several places.
#[cold]
#[inline(never)]
fn past_the_end() -> ! {
    panic!("a place past the end of a list, which the proofs rule out");
}

impl<T, A: Allocator> Vec<T, A> {
    /// Returns the entries at a place or a range. Tests note what is read.
    #[cfg(test)]
    #[track_caller]
    fn entries<I: SliceIndex<[T]>>(&self, place: I) -> &I::Output {
        let found = &self.items[place];
        let count = size_of_val(found) / size_of::<T>();
        note(self.items.as_ptr(), core::ptr::from_ref(found).cast(), count, Way::Index, Location::caller());
        found
    }

    /// Returns the entries at a place or a range.
    #[cfg(not(any(test, feature = "unchecked")))]
    #[inline(always)]
    fn entries<I: SliceIndex<[T]>>(&self, place: I) -> &I::Output {
        match self.items.get(place) {
            Some(found) => found,
            None => past_the_end(),
        }
    }

    /// Returns the entries at a place or a range, which it doesn't test.
    #[cfg(all(feature = "unchecked", not(test)))]
    #[inline(always)]
    fn entries<I: SliceIndex<[T]>>(&self, place: I) -> &I::Output {
        // SAFETY: the proofs rule out a place past the end if the caller keeps what the proved layer requires.
        unsafe { self.items.get_unchecked(place) }
    }
}

impl<T, A: Allocator, I: SliceIndex<[T]>> Index<I> for Vec<T, A> {
    type Output = I::Output;

    #[inline(always)]
    #[cfg_attr(test, track_caller)]
    fn index(&self, place: I) -> &I::Output {
        self.entries(place)
    }
}

impl<T, A: Allocator, I: SliceIndex<[T]>> IndexMut<I> for Vec<T, A> {
    #[inline(always)]
    fn index_mut(&mut self, place: I) -> &mut I::Output {
        #[cfg(not(feature = "unchecked"))]
        return match self.items.get_mut(place) {
            Some(found) => found,
            None => past_the_end(),
        };
        // SAFETY: as above.
        #[cfg(feature = "unchecked")]
        return unsafe { self.items.get_unchecked_mut(place) };
    }
}
