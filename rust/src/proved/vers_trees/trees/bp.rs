//! Ordered trees as lists of balanced parentheses.

use crate::rattle::prelude::*;

mod as_tree;
mod balance;
mod builder;
mod bytes;
mod children;
mod dfs_iter;
mod into;
mod levels;
mod min_max;
mod navigation;
mod post_iter;
mod relatives;
mod scan;
mod search;
mod subtree;

pub use crate::proved::vers_trees::trees::bp::builder::{BpBuilder, BuildError};
pub use crate::proved::vers_trees::trees::bp::bytes::ByteTables;
pub use crate::proved::vers_trees::trees::bp::children::ChildrenIter;
pub use crate::proved::vers_trees::trees::bp::dfs_iter::DfsIter;
use crate::proved::vers_trees::trees::bp::min_max::MinMaxTree;
pub use crate::proved::vers_trees::trees::bp::post_iter::{PostIter, SubtreePostIter};
pub use crate::proved::vers_trees::trees::bp::relatives::{LevelEnd, Measure, Relative};
use crate::proved::vers_trees::trees::bp::search::Searched;
pub use crate::proved::vers_trees::trees::bp::subtree::SubtreeIter;
use crate::rattle::AllocError;
use crate::rattle::Allocator;
use crate::proved::vers_bits::bit_vec::{BitVec, GrowError};
use crate::proved::vers_rank::fast_rs_vec::RsVec;
use crate::proved::vers_tally::tally::Tally;

/// The greatest number of bits of a tree.
pub const MAX_LEN: usize = 9223372036854775807;

/// The greatest number of bits of a block of a tree.
pub const MAX_BLOCK_SIZE: usize = 4294967296;

/// A list of parentheses: a one opens, and a zero closes. If they are balanced, they represent a forest of ordered
/// trees. The position of its one is the handle of a node. Contracts see a `BpTree` as the list of its bits.
///
/// The excess before a position is the number of ones minus the number of zeros before it. Over blocks of
/// `BLOCK_SIZE` bits a min-max tree of 24 bytes per node stores the total, the least and the greatest excess of
/// each part, so that a search for an excess skips the blocks that don't contain it. Only the result of
/// `heap_size` depends on `BLOCK_SIZE`.
///
/// Each query has a form `_counted`, which counts its reads in a `Tally`; the plain form passes a counter of
/// its own. `relative`, `measure` and `level_end` call one of these.
pub struct BpTree<const BLOCK_SIZE: usize, A: Allocator + Copy> {
    bits: RsVec<A>,
    tree: MinMaxTree<A>,
}

impl<const BLOCK_SIZE: usize, A: Allocator + Copy> Clone for BpTree<BLOCK_SIZE, A> {
    /// Returns a copy of the bits and the index.
    fn clone(&self) -> Result<Self, AllocError> {
        let tree = self.tree.copied()?;
        let bits = self.bits.clone()?;
        Ok(BpTree { bits, tree })
    }
}

impl<const BLOCK_SIZE: usize, A: Allocator + Copy> BpTree<BLOCK_SIZE, A> {
    /// Returns the tree of a list of parentheses, balanced or not. The list is dropped on error.
    ///
    /// Precondition: `BLOCK_SIZE` is from 1 to `MAX_BLOCK_SIZE`.
    ///
    /// # Errors
    ///
    /// `TooLong` above `MAX_LEN` bits, which is tested before any allocation; `Memory` if the allocator refuses
    /// a request.
    pub fn from_bit_vector(bits: BitVec<A>) -> Result<Self, GrowError> {
        if bits.len() > MAX_LEN {
            return Err(GrowError::TooLong);
        }
        Ok(BpTree::indexed(bits)?)
    }

    // Returns the tree of a list that is not too long.
    fn indexed(bits: BitVec<A>) -> Result<Self, AllocError> {
        let tree = MinMaxTree::over(&bits, BLOCK_SIZE)?;
        let bits = RsVec::from_bit_vec(bits)?;
        Ok(BpTree { bits, tree })
    }

    /// Returns the number of bits.
    #[inline]
    pub fn len(&self) -> usize {
        self.bits.len()
    }

    /// Returns the bits, with rank and select.
    #[inline]
    pub fn bits(&self) -> &RsVec<A> {
        &self.bits
    }

    /// Returns the number of ones: in balanced parentheses, the number of nodes.
    #[inline]
    pub fn size(&self) -> usize {
        self.bits.ones()
    }

    /// Returns true if the list is empty.
    #[inline]
    pub fn is_empty(&self) -> bool {
        self.bits.is_empty()
    }

    /// Returns the position of the first bit, which opens the first tree of balanced parentheses. `None` if the
    /// list is empty.
    #[inline]
    pub fn root(&self) -> Option<usize> {
        if self.is_empty() { None } else { Some(0) }
    }

    /// Returns the number of bytes that the bits, their index and the tree take, in addition to the `BpTree`
    /// itself, at most the greatest `usize`.
    pub fn heap_size(&self) -> usize {
        self.bits.heap_size().saturating_add(self.tree.heap_size())
    }

    /// Returns true if the parenthesis at `i` opens, or `None` if `i` is out of bounds.
    #[inline]
    pub fn is_open(&self, i: usize) -> Option<bool> {
        let mut tally = Tally::new();
        self.is_open_counted(i, &mut tally)
    }

    /// Returns `is_open(i)`. Reads at most one bit.
    #[inline(always)]
    pub fn is_open_counted(&self, i: usize, tally: &mut Tally) -> Option<bool> {
        if i >= self.bits.len() {
            return None;
        }
        Some(self.bits.is_one_counted(i, tally))
    }

    /// Returns the excess past position `i`: the ones minus the zeros up to it, included. Precondition: `i` is
    /// below the length.
    #[inline]
    pub fn excess(&self, i: usize) -> i64 {
        let mut tally = Tally::new();
        self.excess_counted(i, &mut tally)
    }

    /// Returns `excess(i)`. Reads at most what one rank does.
    #[inline(always)]
    pub fn excess_counted(&self, i: usize, tally: &mut Tally) -> i64 {
        let ones = self.bits.rank1_counted(i + 1, tally);
        let zeros = i + 1 - ones;
        ones as i64 - zeros as i64
    }

    /// Returns the first position after `i` past which the excess is `r` more than past `i`. `None` if there is
    /// none, or `i` is out of bounds.
    #[inline]
    pub fn fwd_search(&self, i: usize, r: i64) -> Option<usize> {
        let mut tally = Tally::new();
        self.fwd_search_counted(i, r, &mut tally)
    }

    /// Returns `fwd_search(i, r)`. Reads at most two blocks, four nodes per level and, as data words, twice the
    /// bits of a block plus four.
    #[inline(always)]
    pub fn fwd_search_counted(&self, i: usize, r: i64, tally: &mut Tally) -> Option<usize> {
        self.searched().forward(i, r, tally)
    }

    /// Returns the last position before `i` before which the excess is `r` more than before `i`. `None` if
    /// there is none, or `i` is out of bounds.
    #[inline]
    pub fn bwd_search(&self, i: usize, r: i64) -> Option<usize> {
        let mut tally = Tally::new();
        self.bwd_search_counted(i, r, &mut tally)
    }

    /// Returns `bwd_search(i, r)`. Reads at most two blocks, four nodes per level and, as data words, twice the
    /// bits of a block plus four.
    #[inline(always)]
    pub fn bwd_search_counted(&self, i: usize, r: i64, tally: &mut Tally) -> Option<usize> {
        self.searched().backward(i, r, tally)
    }

    /// Returns the first position after `i` past which the excess is one less than past `i`: in balanced
    /// parentheses, the zero that closes the one at `i`. `None` if there is none, or `i` is out of bounds.
    #[inline]
    pub fn close(&self, i: usize) -> Option<usize> {
        let mut tally = Tally::new();
        self.close_counted(i, &mut tally)
    }

    /// Returns `close(i)`. Reads at most what one search does.
    #[inline(always)]
    pub fn close_counted(&self, i: usize, tally: &mut Tally) -> Option<usize> {
        self.fwd_search_counted(i, -1, tally)
    }

    /// Returns the last position before `i` before which the excess is one less than before `i`: in balanced
    /// parentheses, if a zero is at `i`, the one that it closes. `None` if there is none, or `i` is out of
    /// bounds.
    #[inline]
    pub fn open(&self, i: usize) -> Option<usize> {
        let mut tally = Tally::new();
        self.open_counted(i, &mut tally)
    }

    /// Returns `open(i)`. Reads at most what one search does.
    #[inline(always)]
    pub fn open_counted(&self, i: usize, tally: &mut Tally) -> Option<usize> {
        self.bwd_search_counted(i, -1, tally)
    }

    /// Returns the last position before `i` before which the excess is one less than before `i` if a one is at
    /// `i`, or two less if a zero is: in balanced parentheses, the position at which the nearest pair opens that
    /// encloses the bit's own pair. `None` if there is none, or `i` is out of bounds.
    #[inline]
    pub fn enclose(&self, i: usize) -> Option<usize> {
        let mut tally = Tally::new();
        self.enclose_counted(i, &mut tally)
    }

    /// Returns `enclose(i)`. Reads at most one bit and what one search does.
    #[inline(always)]
    pub fn enclose_counted(&self, i: usize, tally: &mut Tally) -> Option<usize> {
        if i >= self.bits.len() {
            return None;
        }
        let rise = if self.bits.is_one_counted(i, tally) {
            -1
        } else {
            -2
        };
        self.bwd_search_counted(i, rise, tally)
    }

    /// Returns the position of one `i` (from 0), or the length if there are fewer: in balanced parentheses,
    /// node `i` in preorder.
    #[inline]
    pub fn node_handle(&self, i: usize) -> usize {
        let mut tally = Tally::new();
        self.node_handle_counted(i, &mut tally)
    }

    /// Returns `node_handle(i)`. Reads at most what one select does.
    #[inline(always)]
    pub fn node_handle_counted(&self, i: usize, tally: &mut Tally) -> usize {
        self.bits.select1_counted(i, tally)
    }

    // Returns the parentheses, in the form that searches use.
    #[inline(always)]
    fn searched(&self) -> Searched<'_, BLOCK_SIZE, A> {
        Searched {
            bits: &self.bits,
            tree: &self.tree,
        }
    }
}
