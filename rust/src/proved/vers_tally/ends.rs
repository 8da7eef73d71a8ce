//! One implementation of all double-ended iterators that count their reads.

use crate::rattle::prelude::*;

use crate::proved::vers_tally::tally::Tally;
use crate::rattle::AllocError;
use crate::proved::vers_bits::walk::Span;

/// A list of items, each of which is read at its position, with a counter. A source may keep what it has read,
/// to read the next item faster.
pub trait Source: Sized {
    type Item;

    /// Returns the number of items.
    fn count_items(&self) -> usize;

    /// Returns the item at position `i`. A walk from the front passes the positions in turn. Precondition: `i`
    /// is below the number of items.
    fn item_at(&mut self, i: usize, tally: &mut Tally) -> Self::Item;

    /// Returns the item at position `i`. A walk from the back passes the positions in turn. Precondition: `i`
    /// is below the number of items.
    #[inline]
    fn item_at_back(&mut self, i: usize, tally: &mut Tally) -> Self::Item {
        self.item_at(i, tally)
    }
}

/// A source that is copied without allocating.
pub trait Borrowing: Source {
    /// Returns a copy of the source.
    fn second(&self) -> Self;
}

/// A source whose copy allocates.
pub trait Owning: Source {
    /// Returns a copy of the source.
    fn second(&self) -> Result<Self, AllocError>;
}

/// A source of ascending numbers.
pub trait Ascending: Source<Item = u64> {}

/// A double-ended iterator over the items of a source. Contracts see it as the items `left`, and the reads of a
/// `step`, the bound on reading one of them.
pub struct BothEnds<S: Source> {
    source: S,
    span: Span,
}

impl<S: Source> BothEnds<S> {
    /// Returns an iterator over all items of a source.
    pub fn new(source: S) -> Self {
        let span = Span::below(source.count_items());
        BothEnds { source, span }
    }

    /// Returns the number of items left.
    #[inline]
    pub fn len(&self) -> usize {
        self.span.len()
    }

    /// Returns the number of items left as both the lower and the upper bound.
    pub fn size_hint(&self) -> (usize, Option<usize>) {
        let len = self.len();
        (len, Some(len))
    }

    /// Returns the number of items left.
    pub fn count(self) -> usize {
        self.len()
    }

    /// Skips `n` items and takes the next. If at most `n` are left, returns `None` and the iterator has ended.
    #[inline(always)]
    pub fn nth(&mut self, n: usize) -> Option<S::Item> {
        let mut tally = Tally::new();
        self.nth_counted(n, &mut tally)
    }

    /// Skips `n` items from the back and takes the next. If at most `n` are left, returns `None` and the
    /// iterator has ended.
    #[inline(always)]
    pub fn nth_back(&mut self, n: usize) -> Option<S::Item> {
        let mut tally = Tally::new();
        self.nth_back_counted(n, &mut tally)
    }

    /// Takes the first of the items left. `None` if none is left.
    #[inline(always)]
    pub fn next(&mut self) -> Option<S::Item> {
        let mut tally = Tally::new();
        self.next_counted(&mut tally)
    }

    /// Takes the last of the items left. `None` if none is left.
    #[inline(always)]
    pub fn next_back(&mut self) -> Option<S::Item> {
        let mut tally = Tally::new();
        self.next_back_counted(&mut tally)
    }

    /// Does what `next` does. Reads at most one `step`.
    #[inline(always)]
    pub fn next_counted(&mut self, tally: &mut Tally) -> Option<S::Item> {
        self.nth_counted(0, tally)
    }

    /// Does what `next_back` does. Reads at most one `step`.
    #[inline(always)]
    pub fn next_back_counted(&mut self, tally: &mut Tally) -> Option<S::Item> {
        self.nth_back_counted(0, tally)
    }

    /// Does what `nth` does. Reads at most one `step`.
    #[inline(always)]
    pub fn nth_counted(&mut self, n: usize, tally: &mut Tally) -> Option<S::Item> {
        let i = self.span.nth(n)?;
        Some(self.source.item_at(i, tally))
    }

    /// Does what `nth_back` does. Reads at most one `step`.
    #[inline(always)]
    pub fn nth_back_counted(&mut self, n: usize, tally: &mut Tally) -> Option<S::Item> {
        let i = self.span.nth_back(n)?;
        Some(self.source.item_at_back(i, tally))
    }

    /// Returns the last item, or `None` if no item is left.
    pub fn last(mut self) -> Option<S::Item> {
        let mut tally = Tally::new();
        self.nth_back_counted(0, &mut tally)
    }
}

impl<S: Borrowing> BothEnds<S> {
    /// Returns a second iterator over the items left. Allocates nothing.
    pub fn clone(&self) -> Self {
        let source = self.source.second();
        BothEnds {
            source,
            span: self.span,
        }
    }
}

impl<S: Owning> Clone for BothEnds<S> {
    /// Returns a second iterator over the items left, with a source of its own.
    fn clone(&self) -> Result<Self, AllocError> {
        let source = self.source.second()?;
        Ok(BothEnds {
            source,
            span: self.span,
        })
    }
}

impl<S: Ascending> BothEnds<S> {
    /// Returns the least of the numbers left, or `None` if none is left.
    pub fn min(mut self) -> Option<u64> {
        let _ = self.len();
        self.nth(0)
    }

    /// Returns the greatest of the numbers left, or `None` if none is left.
    pub fn max(mut self) -> Option<u64> {
        let _ = self.len();
        self.nth_back(0)
    }
}

impl<S: Source> Iterator for BothEnds<S> {
    type Item = S::Item;

    #[inline(always)]
    fn next(&mut self) -> Option<S::Item> {
        self.next()
    }

    fn size_hint(&self) -> (usize, Option<usize>) {
        self.size_hint()
    }
}

impl<S: Source> DoubleEndedIterator for BothEnds<S> {
    #[inline(always)]
    fn next_back(&mut self) -> Option<S::Item> {
        self.next_back()
    }
}
