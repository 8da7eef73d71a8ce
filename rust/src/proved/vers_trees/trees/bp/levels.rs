//! Ancestors by level, and walks along the nodes of one depth.

use crate::rattle::prelude::*;

use super::BpTree;
use crate::rattle::Allocator;
use crate::proved::vers_tally::tally::Tally;

impl<const BLOCK_SIZE: usize, A: Allocator + Copy> BpTree<BLOCK_SIZE, A> {
    /// Returns the ancestor of a node `levels` levels up, itself at 0. `None` if there is none.
    ///
    /// Precondition: the parentheses are balanced, and a node opens at `node`.
    #[inline]
    pub fn level_ancestor(&self, node: usize, levels: u64) -> Option<usize> {
        let mut tally = Tally::new();
        self.level_ancestor_counted(node, levels, &mut tally)
    }

    /// Returns `level_ancestor(node, levels)`. Reads at most what one search does.
    #[inline(always)]
    pub fn level_ancestor_counted(
        &self,
        node: usize,
        levels: u64,
        tally: &mut Tally,
    ) -> Option<usize> {
        if levels == 0 {
            return Some(node);
        }
        if levels >= self.len() as u64 {
            return None;
        }
        self.bwd_search_counted(node, -(levels as i64), tally)
    }

    /// Returns the next node of the same depth, or `None` if there is none.
    ///
    /// Precondition: the parentheses are balanced, and a node opens at `node`.
    #[inline]
    pub fn level_next(&self, node: usize) -> Option<usize> {
        let mut tally = Tally::new();
        self.level_next_counted(node, &mut tally)
    }

    /// Returns `level_next(node)`. Reads at most what two searches do.
    #[inline(always)]
    pub fn level_next_counted(&self, node: usize, tally: &mut Tally) -> Option<usize> {
        let close = self.end_counted(node, tally);
        self.fwd_search_counted(close, 1, tally)
    }

    /// Returns the previous node of the same depth, or `None` if there is none.
    ///
    /// Precondition: the parentheses are balanced, and a node opens at `node`.
    #[inline]
    pub fn level_prev(&self, node: usize) -> Option<usize> {
        let mut tally = Tally::new();
        self.level_prev_counted(node, &mut tally)
    }

    /// Returns `level_prev(node)`. Reads at most what two searches do.
    #[inline(always)]
    pub fn level_prev_counted(&self, node: usize, tally: &mut Tally) -> Option<usize> {
        let close = self.bwd_search_counted(node, 1, tally)?;
        self.open_counted(close, tally)
    }

    /// Returns the first node of a depth; roots have depth 0. `None` if no node has that depth.
    ///
    /// Precondition: the parentheses are balanced.
    #[inline]
    pub fn level_leftmost(&self, depth: u64) -> Option<usize> {
        let mut tally = Tally::new();
        self.level_leftmost_counted(depth, &mut tally)
    }

    /// Returns `level_leftmost(depth)`. Reads at most what one search does.
    #[inline(always)]
    pub fn level_leftmost_counted(&self, depth: u64, tally: &mut Tally) -> Option<usize> {
        if depth >= self.len() as u64 {
            return None;
        }
        if depth == 0 {
            return Some(0);
        }
        self.fwd_search_counted(0, depth as i64, tally)
    }

    /// Returns the last node of a depth; roots have depth 0. `None` if no node has that depth.
    ///
    /// Precondition: the parentheses are balanced.
    #[inline]
    pub fn level_rightmost(&self, depth: u64) -> Option<usize> {
        let mut tally = Tally::new();
        self.level_rightmost_counted(depth, &mut tally)
    }

    /// Returns `level_rightmost(depth)`. Reads at most what two searches do.
    #[inline(always)]
    pub fn level_rightmost_counted(&self, depth: u64, tally: &mut Tally) -> Option<usize> {
        let len = self.len();
        if depth >= len as u64 {
            return None;
        }
        if depth == 0 {
            return self.open_counted(len - 1, tally);
        }
        let close = self.bwd_search_counted(len - 1, depth as i64, tally)?;
        self.open_counted(close, tally)
    }
}
