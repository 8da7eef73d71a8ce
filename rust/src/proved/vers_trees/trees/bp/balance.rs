//! Tests whether parentheses are balanced, and whether a node opens at a position.

use crate::rattle::prelude::*;

use crate::proved::vers_trees::trees::bp::BpTree;
use crate::rattle::Allocator;
use crate::proved::vers_tally::tally::Tally;

impl<const BLOCK_SIZE: usize, A: Allocator + Copy> BpTree<BLOCK_SIZE, A> {
    /// Returns true if the parentheses are balanced: they represent a forest.
    #[inline]
    pub fn is_balanced(&self) -> bool {
        let mut tally = Tally::new();
        self.is_balanced_counted(&mut tally)
    }

    /// Returns `is_balanced()`. Reads at most one node and no bit.
    #[inline(always)]
    pub fn is_balanced_counted(&self, tally: &mut Tally) -> bool {
        if self.is_empty() {
            return true;
        }
        self.tree.root_counted(tally).is_level()
    }

    /// Returns true if the parentheses are balanced and a node opens at `position`: the precondition of the
    /// functions on nodes.
    #[inline]
    pub fn has_node(&self, position: usize) -> bool {
        let mut tally = Tally::new();
        self.has_node_counted(position, &mut tally)
    }

    /// Returns `has_node(position)`. Reads at most one node and one bit.
    #[inline(always)]
    pub fn has_node_counted(&self, position: usize, tally: &mut Tally) -> bool {
        self.is_balanced_counted(tally) && self.is_open_counted(position, tally).unwrap_or(false)
    }
}
