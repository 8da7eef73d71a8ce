//! Double-ended iterators: the steps that all of them share.

use crate::rattle::prelude::*;

/// The range of positions that an iterator has yet to pass, empty if `to` is at most `from`. An iterator over a
/// list keeps a span of positions, and reads an item at each position that the span returns.
#[derive(Clone, Copy)]
pub struct Span {
    /// The first position.
    pub from: usize,
    /// The position after the last one.
    pub to: usize,
}

impl Span {
    /// Returns the positions below `len`.
    #[inline]
    pub fn below(len: usize) -> Span {
        Span { from: 0, to: len }
    }

    /// Returns the number of positions left.
    #[inline]
    pub fn len(&self) -> usize {
        self.to.saturating_sub(self.from)
    }

    /// Skips `n` positions from the front and takes the next. If at most `n` are left, returns `None` and none
    /// is left.
    #[inline]
    pub fn nth(&mut self, n: usize) -> Option<usize> {
        if n >= self.len() {
            self.from = self.to;
            return None;
        }
        let position = self.from + n;
        self.from = position + 1;
        Some(position)
    }

    /// Skips `n` positions from the back and takes the next. If at most `n` are left, returns `None` and none
    /// is left.
    #[inline]
    pub fn nth_back(&mut self, n: usize) -> Option<usize> {
        if n >= self.len() {
            self.from = self.to;
            return None;
        }
        self.to -= n + 1;
        Some(self.to)
    }
}
