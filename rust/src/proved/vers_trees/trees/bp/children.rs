//! Iterators over the children of a node.

use crate::rattle::prelude::*;

use super::BpTree;
use super::search::Searched;
use crate::rattle::Allocator;
use std::marker::PhantomData;
use crate::proved::vers_tally::tally::Tally;

/// Marks an iterator that goes forwards if `FORWARD` is true, otherwise backwards.
pub struct Direction<const FORWARD: bool>;

/// A walk from tree to tree among siblings, forwards or backwards from a position between them, in the
/// direction that `D` names. Contracts see it as the nodes `left`, and the bound on the reads of a `step`. A
/// walk that has ended stays ended.
pub struct Siblings<'a, const BLOCK_SIZE: usize, D, A: Allocator + Copy> {
    searched: Searched<'a, BLOCK_SIZE, A>,
    forward: bool,
    position: usize,
    direction: PhantomData<D>,
}

/// An iterator over the children of a node: in order if `FORWARD` is true, otherwise in reverse.
pub type ChildrenIter<'a, const BLOCK_SIZE: usize, const FORWARD: bool, A> = Siblings<
    'a,
    BLOCK_SIZE,
    Direction<FORWARD>,
    A,
>;

impl<'a, const BLOCK_SIZE: usize, D, A: Allocator + Copy> Siblings<'a, BLOCK_SIZE, D, A> {
    fn new(searched: Searched<'a, BLOCK_SIZE, A>, forward: bool, position: usize) -> Self {
        Siblings {
            searched,
            forward,
            position,
            direction: PhantomData,
        }
    }

    /// Takes the first of the nodes left. `None` if none is left.
    #[inline]
    pub fn next(&mut self) -> Option<usize> {
        let mut tally = Tally::new();
        self.next_counted(&mut tally)
    }

    /// Takes the first of the nodes left. `None` if none is left. Reads at most one bit and what one search does.
    #[inline(always)]
    pub fn next_counted(&mut self, tally: &mut Tally) -> Option<usize> {
        let (node, position) = self
            .searched
            .tree_beside(self.forward, self.position, tally)?;
        self.position = position;
        Some(node)
    }
}

impl<'a, const BLOCK_SIZE: usize, D, A: Allocator + Copy> Iterator
    for Siblings<'a, BLOCK_SIZE, D, A> {
    type Item = usize;

    #[inline]
    fn next(&mut self) -> Option<usize> {
        self.next()
    }
}

impl<'a, const BLOCK_SIZE: usize, A: Allocator + Copy> Searched<'a, BLOCK_SIZE, A> {
    // Returns the next tree forwards or backwards from a position, and the position on its other side.
    #[inline(always)]
    fn tree_beside(
        self,
        forward: bool,
        position: usize,
        tally: &mut Tally,
    ) -> Option<(usize, usize)> {
        if forward {
            self.tree_from(position, tally)
        } else {
            self.tree_before(position, tally)
        }
    }

    // Returns the tree that opens at a position, and the position past it.
    #[inline(always)]
    fn tree_from(self, position: usize, tally: &mut Tally) -> Option<(usize, usize)> {
        if position >= self.bits.len() {
            return None;
        }
        if !self.bits.is_one_counted(position, tally) {
            return None;
        }
        let close = self.forward(position, -1, tally)?;
        Some((position, close + 1))
    }

    // Returns the tree that closes right before a position, and the position where it opens.
    #[inline(always)]
    fn tree_before(self, position: usize, tally: &mut Tally) -> Option<(usize, usize)> {
        if position == 0 || position > self.bits.len() {
            return None;
        }
        if self.bits.is_one_counted(position - 1, tally) {
            return None;
        }
        let open = self.backward(position - 1, -1, tally)?;
        Some((open, open))
    }
}

impl<const BLOCK_SIZE: usize, A: Allocator + Copy> BpTree<BLOCK_SIZE, A> {
    /// Returns an iterator over the children of a node, in order. Precondition: the parentheses are balanced,
    /// and a node opens at `node`.
    pub fn children(&self, node: usize) -> ChildrenIter<'_, BLOCK_SIZE, true, A> {
        Siblings::new(self.searched(), true, node + 1)
    }

    /// Returns an iterator over the children of a node, in reverse. Precondition: the parentheses are balanced,
    /// and a node opens at `node`.
    pub fn rev_children(&self, node: usize) -> ChildrenIter<'_, BLOCK_SIZE, false, A> {
        let end = self.end(node);
        Siblings::new(self.searched(), false, end)
    }
}
