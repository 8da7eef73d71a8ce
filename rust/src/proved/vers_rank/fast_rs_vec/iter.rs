//! Iterators over the bits of an indexed list.

use crate::rattle::prelude::*;

use super::RsVec;
use crate::rattle::AllocError;
use crate::rattle::Allocator;
use crate::proved::vers_tally::ends::{Borrowing, BothEnds, Owning, Source};
use crate::proved::vers_tally::tally::Tally;

/// An indexed list, borrowed or owned.
pub trait Indexed: Sized {
    type Alloc: Allocator + Copy;

    /// Returns the list itself.
    fn list(&self) -> &RsVec<Self::Alloc>;
}

impl<'a, A: Allocator + Copy> Indexed for &'a RsVec<A> {
    type Alloc = A;

    #[inline]
    fn list(&self) -> &RsVec<A> {
        *self
    }
}

impl<A: Allocator + Copy> Indexed for RsVec<A> {
    type Alloc = A;

    #[inline]
    fn list(&self) -> &RsVec<A> {
        self
    }
}

/// The bits of an indexed list as numbers, which iterators read one by one.
pub struct Bits<L: Indexed> {
    list: L,
}

impl<L: Indexed> Source for Bits<L> {
    type Item = u64;

    #[inline]
    fn count_items(&self) -> usize {
        self.list.list().len()
    }

    #[inline]
    fn item_at(&mut self, i: usize, tally: &mut Tally) -> u64 {
        u64::from(self.list.list().is_one_counted(i, tally))
    }
}

impl<'a, A: Allocator + Copy> Borrowing for Bits<&'a RsVec<A>> {
    fn second(&self) -> Self {
        Bits { list: self.list }
    }
}

impl<A: Allocator + Copy> Owning for Bits<RsVec<A>> {
    fn second(&self) -> Result<Self, AllocError> {
        let list = self.list.clone()?;
        Ok(Bits { list })
    }
}

/// An iterator over the bits of a list, as numbers: 1 for a one, 0 for a zero. Each step reads what
/// one `get` does.
pub type RsVecRefIter<'a, A> = BothEnds<Bits<&'a RsVec<A>>>;

/// An iterator over the bits of a list that it owns, as numbers: 1 for a one, 0 for a zero. Each
/// step reads what one `get` does.
pub type RsVecIter<A> = BothEnds<Bits<RsVec<A>>>;

impl<A: Allocator + Copy> RsVec<A> {
    /// Returns an iterator over the bits, as numbers.
    pub fn iter(&self) -> RsVecRefIter<'_, A> {
        BothEnds::new(Bits { list: self })
    }
}

impl<'a, A: Allocator + Copy> IntoIterator for &'a RsVec<A> {
    type Item = u64;

    type IntoIter = RsVecRefIter<'a, A>;

    fn into_iter(self) -> RsVecRefIter<'a, A> {
        self.iter()
    }
}

impl<'a, A: Allocator + Copy> IntoIterator for &'a mut RsVec<A> {
    type Item = u64;

    type IntoIter = RsVecRefIter<'a, A>;

    fn into_iter(self) -> RsVecRefIter<'a, A> {
        self.iter()
    }
}

impl<A: Allocator + Copy> IntoIterator for RsVec<A> {
    type Item = u64;

    type IntoIter = RsVecIter<A>;

    /// Returns an iterator over the bits, as numbers, which owns the list.
    fn into_iter(self) -> RsVecIter<A> {
        BothEnds::new(Bits { list: self })
    }
}
