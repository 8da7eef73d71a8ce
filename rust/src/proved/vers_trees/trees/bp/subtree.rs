//! The iterator over the subtree of a node.

use crate::rattle::prelude::*;

use super::BpTree;
use crate::rattle::Allocator;
use crate::proved::vers_rank::fast_rs_vec::SelectIter;
use crate::proved::vers_tally::ends::{BothEnds, Source};

/// An iterator over the subtree of a node in preorder. Each step reads at most what one select does.
pub type SubtreeIter<'a, A> = SelectIter<'a, false, A>;

// Returns the `count` items from item `first` on.
fn part_of<S: Source<Item = usize>>(
    mut items: BothEnds<S>,
    first: usize,
    count: usize,
) -> BothEnds<S> {
    if first > 0 {
        items.nth(first - 1);
    }
    let rest = items.len() - count;
    if rest > 0 {
        items.nth_back(rest - 1);
    }
    items
}

impl<const BLOCK_SIZE: usize, A: Allocator + Copy> BpTree<BLOCK_SIZE, A> {
    /// Returns an iterator over the subtree of a node in preorder. Precondition: the parentheses are balanced,
    /// and a node opens at `node`.
    pub fn subtree_iter(&self, node: usize) -> SubtreeIter<'_, A> {
        let first = self.bits.rank1(node);
        let count = self.nodes_within(node);
        part_of(self.bits.iter1(), first, count)
    }

    // Returns the number of nodes in the subtree of a node, including itself.
    pub(super) fn nodes_within(&self, node: usize) -> usize {
        let end = self.end(node);
        (end - node) / 2 + 1
    }
}
