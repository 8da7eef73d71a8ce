//! Iterators over nodes in postorder.

use crate::rattle::prelude::*;

use super::BpTree;
use super::search::Searched;
use crate::rattle::Allocator;
use crate::proved::vers_rank::fast_rs_vec::{Positions, RsVec};
use crate::proved::vers_tally::ends::{Borrowing, BothEnds, Source};
use crate::proved::vers_tally::tally::Tally;

/// The nodes that `count` zeros of a list close, from zero `first` on, which iterators find one by one: the
/// position of a zero, then by a search where it opens.
pub struct ClosedNodes<'a, const BLOCK_SIZE: usize, A: Allocator + Copy> {
    searched: Searched<'a, BLOCK_SIZE, A>,
    zeros: Positions<(), &'a RsVec<A>>,
    first: usize,
    count: usize,
}

impl<'a, const BLOCK_SIZE: usize, A: Allocator + Copy> Source for ClosedNodes<'a, BLOCK_SIZE, A> {
    type Item = usize;

    #[inline]
    fn count_items(&self) -> usize {
        self.count
    }

    #[inline(always)]
    fn item_at(&mut self, i: usize, tally: &mut Tally) -> usize {
        let close = self.zeros.item_at(self.first + i, tally);
        self.searched.backward(close, -1, tally).unwrap_or(0)
    }
}

impl<'a, const BLOCK_SIZE: usize, A: Allocator + Copy> Borrowing
    for ClosedNodes<'a, BLOCK_SIZE, A> {
    #[inline]
    fn second(&self) -> Self {
        ClosedNodes {
            searched: self.searched,
            zeros: self.zeros.second(),
            first: self.first,
            count: self.count,
        }
    }
}

/// An iterator over all nodes in postorder. Each step reads at most what one select and one search do.
pub type PostIter<'a, const BLOCK_SIZE: usize, A> = BothEnds<ClosedNodes<'a, BLOCK_SIZE, A>>;

/// An iterator over the subtree of a node in postorder. Each step reads at most what one select and one search
/// do.
pub type SubtreePostIter<'a, const BLOCK_SIZE: usize, A> = BothEnds<ClosedNodes<'a, BLOCK_SIZE, A>>;

impl<const BLOCK_SIZE: usize, A: Allocator + Copy> BpTree<BLOCK_SIZE, A> {
    /// Returns an iterator over all nodes in postorder. Precondition: the parentheses are balanced.
    pub fn dfs_post_iter(&self) -> PostIter<'_, BLOCK_SIZE, A> {
        self.closed_by(0, self.bits.zeros())
    }

    /// Returns an iterator over the subtree of a node in postorder. Precondition: the parentheses are balanced,
    /// and a node opens at `node`.
    pub fn subtree_post_iter(&self, node: usize) -> SubtreePostIter<'_, BLOCK_SIZE, A> {
        let first = self.bits.rank0(node);
        let count = self.nodes_within(node);
        self.closed_by(first, count)
    }

    // Returns an iterator over the nodes that `count` zeros close, from zero `first` on.
    fn closed_by(&self, first: usize, count: usize) -> PostIter<'_, BLOCK_SIZE, A> {
        let searched = self.searched();
        BothEnds::new(ClosedNodes {
            searched,
            zeros: Positions::new(searched.bits, false),
            first,
            count,
        })
    }
}
