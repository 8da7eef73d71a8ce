//! Conversions of a tree.

use crate::rattle::prelude::*;

use super::BpTree;
use crate::rattle::Allocator;
use crate::proved::vers_bits::bit_vec::BitVec;
use crate::proved::vers_rank::fast_rs_vec::{RsVec, SelectIntoIter};

impl<const BLOCK_SIZE: usize, A: Allocator + Copy> BpTree<BLOCK_SIZE, A> {
    /// Returns the parentheses without the tree, with rank and select. Allocates nothing.
    pub fn into_parentheses_vec(self) -> RsVec<A> {
        let BpTree { bits, tree: _ } = self;
        bits
    }
}

impl<const BLOCK_SIZE: usize, A: Allocator + Copy> From<BpTree<BLOCK_SIZE, A>> for RsVec<A> {
    /// Returns the parentheses without the tree, with rank and select. Allocates nothing.
    fn from(tree: BpTree<BLOCK_SIZE, A>) -> Self {
        tree.into_parentheses_vec()
    }
}

impl<const BLOCK_SIZE: usize, A: Allocator + Copy> From<BpTree<BLOCK_SIZE, A>> for BitVec<A> {
    /// Returns the parentheses without any index. Allocates nothing.
    fn from(tree: BpTree<BLOCK_SIZE, A>) -> Self {
        tree.into_parentheses_vec().into_bit_vec()
    }
}

impl<const BLOCK_SIZE: usize, A: Allocator + Copy> IntoIterator for BpTree<BLOCK_SIZE, A> {
    type Item = usize;

    type IntoIter = SelectIntoIter<false, A>;

    /// Returns an iterator over the positions of the ones, ascending, which owns the list. Allocates nothing.
    fn into_iter(self) -> SelectIntoIter<false, A> {
        self.into_parentheses_vec().into_iter1()
    }
}
