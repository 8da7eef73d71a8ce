//! One implementation of all double-ended iterators whose items are allocated.

use crate::rattle::prelude::*;

use crate::proved::vers_tally::tally::Tally;
use crate::rattle::AllocError;
use crate::proved::vers_bits::walk::Span;

/// A list of items, each of which is allocated at its position, with a counter.
pub trait Maker: Sized {
    type Item;

    /// Returns the number of items.
    fn count_items(&self) -> usize;

    /// Returns the item at position `i`. On error the maker has the same items. Precondition: `i` is below the
    /// number of items.
    fn make_at(&mut self, i: usize, tally: &mut Tally) -> Result<Self::Item, AllocError>;
}

/// A maker that is copied without allocating.
pub trait BorrowingMaker: Maker {
    /// Returns a copy of the maker.
    fn second(&self) -> Self;
}

/// A maker whose copy allocates.
pub trait OwningMaker: Maker {
    /// Returns a copy of the maker.
    fn second(&self) -> Result<Self, AllocError>;
}

/// A double-ended iterator over the items of a maker. An item whose allocation fails counts as passed.
/// Contracts see it as the items `left`, and the reads of a `step`, the bound on making one of them.
pub struct MadeEnds<M: Maker> {
    maker: M,
    span: Span,
}

impl<M: Maker> MadeEnds<M> {
    /// Returns an iterator over all items of a maker.
    pub fn new(maker: M) -> Self {
        let span = Span::below(maker.count_items());
        MadeEnds { maker, span }
    }

    /// Returns the number of items left.
    #[inline]
    pub fn len(&self) -> usize {
        self.span.len()
    }

    /// Returns the number of items left as both the lower and the upper bound.
    pub fn size_hint(&self) -> (usize, Option<usize>) {
        let len = self.len();
        (len, Some(len))
    }

    /// Returns the number of items left.
    pub fn count(self) -> usize {
        self.len()
    }

    /// Skips `n` items and makes the next. If at most `n` are left, returns `None` and the iterator has ended.
    pub fn nth(&mut self, n: usize) -> Option<Result<M::Item, AllocError>> {
        let mut tally = Tally::new();
        self.nth_counted(n, &mut tally)
    }

    /// Skips `n` items from the back and makes the next. If at most `n` are left, returns `None` and the
    /// iterator has ended.
    pub fn nth_back(&mut self, n: usize) -> Option<Result<M::Item, AllocError>> {
        let mut tally = Tally::new();
        self.nth_back_counted(n, &mut tally)
    }

    /// Makes the first of the items left, which is passed also on error. `None` if none is left.
    pub fn next(&mut self) -> Option<Result<M::Item, AllocError>> {
        self.nth(0)
    }

    /// Makes the last of the items left, which is passed also on error. `None` if none is left.
    pub fn next_back(&mut self) -> Option<Result<M::Item, AllocError>> {
        self.nth_back(0)
    }

    /// Does what `next` does. Reads at most one `step`.
    pub fn next_counted(&mut self, tally: &mut Tally) -> Option<Result<M::Item, AllocError>> {
        self.nth_counted(0, tally)
    }

    /// Does what `next_back` does. Reads at most one `step`.
    pub fn next_back_counted(&mut self, tally: &mut Tally) -> Option<Result<M::Item, AllocError>> {
        self.nth_back_counted(0, tally)
    }

    /// Does what `nth` does. Reads at most one `step`.
    pub fn nth_counted(
        &mut self,
        n: usize,
        tally: &mut Tally,
    ) -> Option<Result<M::Item, AllocError>> {
        let i = self.span.nth(n)?;
        Some(self.maker.make_at(i, tally))
    }

    /// Does what `nth_back` does. Reads at most one `step`.
    pub fn nth_back_counted(
        &mut self,
        n: usize,
        tally: &mut Tally,
    ) -> Option<Result<M::Item, AllocError>> {
        let i = self.span.nth_back(n)?;
        Some(self.maker.make_at(i, tally))
    }

    /// Returns the last item, or `None` if no item is left.
    pub fn last(mut self) -> Option<Result<M::Item, AllocError>> {
        self.nth_back(0)
    }
}

impl<M: BorrowingMaker> MadeEnds<M> {
    /// Returns a second iterator over the items left. Allocates nothing.
    pub fn clone(&self) -> Self {
        MadeEnds {
            maker: self.maker.second(),
            span: self.span,
        }
    }
}

impl<M: OwningMaker> Clone for MadeEnds<M> {
    /// Returns a second iterator over the items left, with a maker of its own.
    fn clone(&self) -> Result<Self, AllocError> {
        let maker = self.maker.second()?;
        Ok(MadeEnds {
            maker,
            span: self.span,
        })
    }
}

impl<M: Maker> Iterator for MadeEnds<M> {
    type Item = Result<M::Item, AllocError>;

    fn next(&mut self) -> Option<Result<M::Item, AllocError>> {
        self.next()
    }

    fn size_hint(&self) -> (usize, Option<usize>) {
        self.size_hint()
    }
}

impl<M: Maker> DoubleEndedIterator for MadeEnds<M> {
    fn next_back(&mut self) -> Option<Result<M::Item, AllocError>> {
        self.next_back()
    }
}
