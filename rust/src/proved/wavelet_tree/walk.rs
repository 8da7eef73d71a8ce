//! Queries of a wavelet tree, each a walk from the root to the leaf of a symbol.

use crate::rattle::prelude::*;

use crate::proved::wavelet_tree::node::LEAVES;
use crate::proved::wavelet_tree::tree::WaveletTree;
use crate::rattle::Allocator;
use std::ops::Range;
use crate::proved::vers_tally::tally::Tally;

/// The symbol at a position, and its sorted position: its index when all elements are sorted, and equal ones keep their
/// order.
#[derive(Clone, Copy, PartialEq, Eq, Debug)]
pub struct SortedPosition {
    /// The symbol.
    pub symbol: u64,
    /// The sorted position.
    pub position: usize,
}

impl<A: Allocator + Copy> WaveletTree<A> {
    /// Returns the sorted positions of the occurrences of a symbol in a range: they are adjacent. (The sorted position
    /// is the index when all elements are sorted, and equal ones keep their order.) `None` if the symbol doesn't occur
    /// in the range. Precondition: the range is within the list, and not reversed.
    #[inline(always)]
    pub fn sorted_range(&self, range: Range<usize>, symbol: u64) -> Option<Range<usize>> {
        let mut tally = Tally::new();
        self.sorted_range_counted(range, symbol, &mut tally)
    }

    /// Returns `sorted_range(..)`. Reads two numbers of lesser elements, and at most a node and two ranks for each fork
    /// that leads to the symbol.
    #[inline(always)]
    pub fn sorted_range_counted(
        &self,
        range: Range<usize>,
        symbol: u64,
        tally: &mut Tally,
    ) -> Option<Range<usize>> {
        let all = self.sorted_all(symbol, tally);
        if all.start == all.end {
            return None;
        }
        // All occurrences need no walk.
        if range.start == 0 && range.end == self.len {
            return Some(all);
        }
        let found = self.descend(range.start, range.end, symbol, tally);
        if found.start == found.end {
            return None;
        }
        Some(found)
    }

    /// Returns the number of occurrences of a symbol before `position`. Precondition: `position` is at most
    /// the length.
    #[inline(always)]
    pub fn rank(&self, position: usize, symbol: u64) -> usize {
        let mut tally = Tally::new();
        self.rank_counted(position, symbol, &mut tally)
    }

    /// Returns `rank(..)`. Reads two numbers of lesser elements, and at most a node and a rank for each fork that leads
    /// to the symbol.
    #[inline(always)]
    pub fn rank_counted(&self, position: usize, symbol: u64, tally: &mut Tally) -> usize {
        let all = self.sorted_all(symbol, tally);
        if all.start == all.end {
            return 0;
        }
        self.descend_from(position, symbol, tally) - all.start
    }

    // Returns the sorted positions of all occurrences of a symbol.
    #[inline(always)]
    pub(crate) fn sorted_all(&self, symbol: u64, tally: &mut Tally) -> Range<usize> {
        if symbol >> self.width != 0 {
            return 0..0;
        }
        let start = self.starts.read(symbol as usize, tally) as usize;
        let end = self.starts.read(symbol as usize + 1, tally) as usize;
        start..end
    }

    // Returns the sorted positions of the occurrences of a symbol from `start` on, before `end`. Precondition: the
    // symbol occurs.
    #[inline(always)]
    fn descend(&self, start: usize, end: usize, symbol: u64, tally: &mut Tally) -> Range<usize> {
        let mut link = self.root;
        let mut from = start;
        let mut to = end;
        while link < LEAVES {
            let node = self.nodes.read(link as usize, tally);
            let is_high = symbol >= u64::from(node.split);
            let from_ones = self.bits.get_and_rank1_counted(from, tally).ones;
            let to_ones = self.bits.get_and_rank1_counted(to, tally).ones;
            from = node.position_below(is_high, from, from_ones);
            to = node.position_below(is_high, to, to_ones);
            link = node.link_below(is_high);
        }
        from..to
    }

    // Returns the sorted position of the first occurrence of a symbol from `position` on. Precondition: there is one.
    #[inline(always)]
    fn descend_from(&self, position: usize, symbol: u64, tally: &mut Tally) -> usize {
        let mut link = self.root;
        let mut at = position;
        while link < LEAVES {
            let node = self.nodes.read(link as usize, tally);
            let is_high = symbol >= u64::from(node.split);
            let ones = self.bits.get_and_rank1_counted(at, tally).ones;
            at = node.position_below(is_high, at, ones);
            link = node.link_below(is_high);
        }
        at
    }

    /// Returns the symbol at a position. Precondition: `position` is below the length.
    #[inline(always)]
    pub fn get(&self, position: usize) -> u64 {
        self.get_sorted(position).symbol
    }

    /// Returns the symbol at a position, and its sorted position: its index when all elements are sorted, and equal
    /// ones keep their order. Precondition: `position` is below the length.
    #[inline(always)]
    pub fn get_sorted(&self, position: usize) -> SortedPosition {
        let mut tally = Tally::new();
        self.get_sorted_counted(position, &mut tally)
    }

    /// Returns `get_sorted(position)`. Reads at most a node and a rank for each fork that leads to the symbol.
    #[inline(always)]
    pub fn get_sorted_counted(&self, position: usize, tally: &mut Tally) -> SortedPosition {
        let mut link = self.root;
        let mut at = position;
        while link < LEAVES {
            let node = self.nodes.read(link as usize, tally);
            let found = self.bits.get_and_rank1_counted(at, tally);
            at = node.position_below(found.is_one, at, found.ones);
            link = node.link_below(found.is_one);
        }
        SortedPosition {
            symbol: u64::from(link - LEAVES),
            position: at,
        }
    }
}
