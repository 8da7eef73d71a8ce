//! Iterators over the elements of an ascending list.

use crate::rattle::prelude::*;

use super::EliasFanoVec;
use super::ahead::Ahead;
use crate::rattle::AllocError;
use crate::rattle::Allocator;
use crate::proved::vers_tally::ends::{Ascending, Borrowing, BothEnds, Owning, Source};
use crate::proved::vers_tally::tally::Tally;

/// An ascending list, borrowed or owned.
pub trait Sorted: Sized {
    type Alloc: Allocator + Copy;

    /// Returns the list itself.
    fn list(&self) -> &EliasFanoVec<Self::Alloc>;
}

impl<'a, A: Allocator + Copy> Sorted for &'a EliasFanoVec<A> {
    type Alloc = A;

    #[inline]
    fn list(&self) -> &EliasFanoVec<A> {
        *self
    }
}

impl<A: Allocator + Copy> Sorted for EliasFanoVec<A> {
    type Alloc = A;

    #[inline]
    fn list(&self) -> &EliasFanoVec<A> {
        self
    }
}

/// The elements of an ascending list, which iterators read one by one. It keeps the bits that it has read: those from
/// element `next` on, for a walk from the front, and those before element `end`, for one from the back.
pub struct Elements<L: Sorted> {
    list: L,
    next: usize,
    ahead: Ahead,
    end: usize,
    behind: Ahead,
}

impl<L: Sorted> Elements<L> {
    // Returns the elements of a list, of which nothing is read ahead.
    pub(super) fn new(list: L) -> Self {
        Elements {
            list,
            next: 0,
            ahead: Ahead::none(),
            end: 0,
            behind: Ahead::none(),
        }
    }

    // Returns the element at a position, if there is one. It is read fastest at the position after the last one.
    #[inline(always)]
    pub(super) fn element_of(&mut self, position: Option<u64>, tally: &mut Tally) -> Option<u64> {
        let i = position? as usize;
        if i >= self.count_items() {
            return None;
        }
        Some(self.item_at(i, tally))
    }
}

impl<L: Sorted> Source for Elements<L> {
    type Item = u64;

    #[inline]
    fn count_items(&self) -> usize {
        self.list.list().len()
    }

    #[inline(always)]
    fn item_at(&mut self, i: usize, tally: &mut Tally) -> u64 {
        let list = self.list.list();
        let _ = list.len();
        if i != self.next {
            self.ahead = Ahead::none();
        }
        self.next = i + 1;
        list.element_ahead(i, &mut self.ahead, tally)
    }

    #[inline(always)]
    fn item_at_back(&mut self, i: usize, tally: &mut Tally) -> u64 {
        let list = self.list.list();
        let _ = list.len();
        if i + 1 != self.end {
            self.behind = Ahead::none();
        }
        self.end = i;
        list.element_behind(i, &mut self.behind, tally)
    }
}

impl<L: Sorted> Ascending for Elements<L> {}

impl<'a, A: Allocator + Copy> Borrowing for Elements<&'a EliasFanoVec<A>> {
    fn second(&self) -> Self {
        Elements::new(self.list)
    }
}

impl<A: Allocator + Copy> Owning for Elements<EliasFanoVec<A>> {
    fn second(&self) -> Result<Self, AllocError> {
        let list = self.list.clone()?;
        Ok(Elements::new(list))
    }
}

/// An iterator over the elements of a list. Each step reads at most what one `get` does.
pub type EliasFanoRefIter<'a, A> = BothEnds<Elements<&'a EliasFanoVec<A>>>;

/// An iterator over the elements of a list that it owns. Each step reads at most what one `get`
/// does.
pub type EliasFanoIter<A> = BothEnds<Elements<EliasFanoVec<A>>>;

impl<A: Allocator + Copy> EliasFanoVec<A> {
    /// Returns an iterator over the elements.
    pub fn iter(&self) -> EliasFanoRefIter<'_, A> {
        BothEnds::new(Elements::new(self))
    }
}

impl<'a, A: Allocator + Copy> IntoIterator for &'a EliasFanoVec<A> {
    type Item = u64;

    type IntoIter = EliasFanoRefIter<'a, A>;

    fn into_iter(self) -> EliasFanoRefIter<'a, A> {
        self.iter()
    }
}

impl<'a, A: Allocator + Copy> IntoIterator for &'a mut EliasFanoVec<A> {
    type Item = u64;

    type IntoIter = EliasFanoRefIter<'a, A>;

    fn into_iter(self) -> EliasFanoRefIter<'a, A> {
        self.iter()
    }
}

impl<A: Allocator + Copy> IntoIterator for EliasFanoVec<A> {
    type Item = u64;

    type IntoIter = EliasFanoIter<A>;

    /// Returns an iterator over the elements, which owns the list.
    fn into_iter(self) -> EliasFanoIter<A> {
        BothEnds::new(Elements::new(self))
    }
}
