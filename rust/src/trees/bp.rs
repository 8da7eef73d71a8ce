//! Trees by balanced parentheses.

use super::{IsAncestor, LevelTree, SubtreeSize, Tree, TreeBuilder};
use crate::bit_vec::fast_rs_vec::SelectIntoIter;
use crate::contracts::contract;
use crate::error::{granted, BuildError};
use crate::items::{counted_iterator, first_of, iterator, last_of};
use crate::proved::vers_trees::trees::bp as proved;
use crate::rattle::Global;
use crate::reads::Tally;
use crate::saved::{LoadError, SaveError, Saved};
use crate::{BitVec, RsVec};
use std::fmt;
use std::hash::{Hash, Hasher};

const DEFAULT_BLOCK_SIZE: usize = 512;

/// A tree, as the parentheses that a depth-first walk writes: a one when it enters a node, and a zero when it leaves
/// the node. The handle of a node is the position of its one. Several trees may follow one another; their roots are
/// siblings.
///
/// Calls that take a node expect balanced parentheses and the position of a one. The page of each says what it returns
/// otherwise, and whether it panics with debug assertions. Walks are empty then.
///
/// ```
/// use vers_vecs::{BitVec, BpTree, Tree};
///
/// let tree: BpTree = BpTree::from_bit_vector(BitVec::from_bits(&[1, 1, 0, 1, 1, 0, 0, 0]));
/// assert_eq!(tree.children(0).collect::<Vec<_>>(), [1, 3]);
/// assert_eq!(tree.parent(4), Some(3));
/// assert_eq!(tree.depth(4), 2);
/// assert_eq!(tree.size(), 4);
/// ```
///
/// `BLOCK_SIZE` is the number of bits of a block of the index: from 1 to 2^32. Other sizes don't compile.
///
/// ```compile_fail
/// let tree = vers_vecs::BpTree::<0>::from_bit_vector(vers_vecs::BitVec::new());
/// ```
pub struct BpTree<const BLOCK_SIZE: usize = DEFAULT_BLOCK_SIZE> {
    tree: proved::BpTree<BLOCK_SIZE, Global>,
    // Whether the parentheses are balanced, asked once when the tree is made: it can't change.
    balanced: bool,
}

/// Constructors, and queries of any list of parentheses.
impl<const BLOCK_SIZE: usize> BpTree<BLOCK_SIZE> {
    const BLOCK_SIZE_FITS: () =
        assert!(0 < BLOCK_SIZE && BLOCK_SIZE <= proved::MAX_BLOCK_SIZE, "a block has 1 to 2^32 bits");

    fn of(tree: proved::BpTree<BLOCK_SIZE, Global>) -> Self {
        let balanced = tree.is_balanced();
        BpTree { tree, balanced }
    }

    /// Indexes some parentheses, whose memory it takes over, in O(`bits.len()`). They don't have to be balanced.
    #[doc = contract!(BpTree::from_bit_vector)]
    #[must_use]
    #[track_caller]
    pub fn from_bit_vector(bits: BitVec) -> Self {
        granted(Self::try_from_bit_vector(bits))
    }

    /// Indexes some parentheses, as [`from_bit_vector`](Self::from_bit_vector) does.
    ///
    /// # Errors
    /// `TooLong` if there are more than `i64::MAX` bits, and `OutOfMemory`.
    #[doc = contract!(BpTree::from_bit_vector)]
    pub fn try_from_bit_vector(bits: BitVec) -> Result<Self, BuildError> {
        let () = Self::BLOCK_SIZE_FITS;
        Ok(Self::of(proved::BpTree::from_bit_vector(bits.bits)?))
    }

    /// Returns the first position after `i` up to which the excess is `r` more than up to `i`. `None` if there is none.
    /// O(log `len`).
    #[doc = contract!(BpTree::fwd_search)]
    #[inline]
    pub fn fwd_search(&self, i: usize, r: i64) -> Option<usize> {
        self.tree.fwd_search(i, r)
    }

    /// Returns the last position before `i` before which the excess is `r` more than before `i`. `None` if there is
    /// none, or `i` is past the end. O(log `len`).
    #[doc = contract!(BpTree::bwd_search)]
    #[inline]
    pub fn bwd_search(&self, i: usize, r: i64) -> Option<usize> {
        self.tree.bwd_search(i, r)
    }

    /// Returns the first position after `i` up to which the excess is one less than up to `i`: for a one, the zero that
    /// closes it, and for a zero, in balanced parentheses, the position at which the pair around it closes. `None` if
    /// there is none. O(log `len`).
    #[doc = contract!(BpTree::close)]
    #[must_use]
    #[inline]
    pub fn close(&self, i: usize) -> Option<usize> {
        self.tree.close(i)
    }

    /// Returns the last position before `i` before which the excess is one less than before `i`: for a zero, the one that
    /// it closes, and for a one, in balanced parentheses, its parent. `None` if there is none. O(log `len`).
    #[doc = contract!(BpTree::open)]
    #[must_use]
    #[inline]
    pub fn open(&self, i: usize) -> Option<usize> {
        self.tree.open(i)
    }

    /// Returns the position at which the nearest pair around `i` opens, or `None` if there is none. O(log `len`).
    #[doc = contract!(BpTree::enclose)]
    #[must_use]
    #[inline]
    pub fn enclose(&self, i: usize) -> Option<usize> {
        self.tree.enclose(i)
    }

    /// Returns the number of ones less the number of zeros up to `i` included, or up to the end past it. O(1).
    ///
    /// # Panics
    /// With debug assertions, if `i` is past the end.
    #[doc = contract!(BpTree::excess)]
    #[must_use]
    #[track_caller]
    pub fn excess(&self, i: usize) -> i64 {
        debug_assert!(i < self.tree.len(), "the tree has no position {}", i);
        self.excess_before(i.saturating_add(1).min(self.tree.len()))
    }

    /// Returns the number of ones less the number of zeros before a position that is at most the length.
    fn excess_before(&self, position: usize) -> i64 {
        match position.checked_sub(1) {
            Some(last) if last < self.tree.len() => self.tree.excess(last),
            _ => 0,
        }
    }

    /// Returns the number of ones before a position that is at most the length.
    fn ones_before(&self, position: usize) -> usize {
        (position as i64 + self.excess_before(position)) as usize / 2
    }

    /// Returns true if the parentheses are balanced, so that they describe trees. O(1).
    #[doc = contract!(BpTree::is_balanced)]
    #[must_use]
    pub fn is_balanced(&self) -> bool {
        self.balanced
    }

    /// Returns true if the bit at `i` is a one, or `None` past the end. O(1).
    #[doc = contract!(BpTree::is_open)]
    #[must_use]
    #[inline]
    pub fn is_open(&self, i: usize) -> Option<bool> {
        self.tree.is_open(i)
    }

    /// Returns true if the parentheses are balanced and a node opens at `position`. O(1).
    #[doc = contract!(BpTree::has_node)]
    #[must_use]
    #[inline]
    pub fn has_node(&self, position: usize) -> bool {
        self.balanced && self.tree.is_open(position) == Some(true)
    }

    /// Panics if no node opens, in a build with debug assertions.
    #[inline]
    #[track_caller]
    fn assert_node(&self, node: usize) {
        debug_assert_eq!(self.tree.is_open(node), Some(true), "no node opens at {}", node);
    }

    /// Returns the parentheses with rank and select, without a copy.
    #[doc = contract!(BpTree::into_parentheses_vec)]
    #[must_use]
    pub fn into_parentheses_vec(self) -> RsVec {
        RsVec { bits: self.tree.into_parentheses_vec() }
    }

    /// Returns the number of bytes on the heap.
    #[doc = contract!(BpTree::heap_size)]
    #[must_use]
    pub fn heap_size(&self) -> usize {
        self.tree.heap_size()
    }
}

/// Walks. Those of no node, and of parentheses that aren't balanced, are empty; `iter` and `dfs_iter` return the
/// positions of the ones.
impl<const BLOCK_SIZE: usize> BpTree<BLOCK_SIZE> {
    /// Iterates over all nodes in preorder.
    #[doc = contract!(BpTree::iter)]
    pub fn iter(&self) -> DfsIter<'_> {
        DfsIter(self.tree.iter())
    }

    /// Iterates over all nodes in preorder.
    #[doc = contract!(BpTree::dfs_iter)]
    pub fn dfs_iter(&self) -> DfsIter<'_> {
        DfsIter(self.tree.dfs_iter())
    }

    /// Iterates over all nodes in postorder.
    #[doc = contract!(BpTree::dfs_post_iter)]
    pub fn dfs_post_iter(&self) -> PostIter<'_, BLOCK_SIZE> {
        PostIter(if self.balanced { Some(self.tree.dfs_post_iter()) } else { None })
    }

    /// Iterates over a node and all below it in preorder.
    #[doc = contract!(BpTree::subtree_iter)]
    pub fn subtree_iter(&self, node: usize) -> DfsIter<'_> {
        if self.has_node(node) {
            return DfsIter(self.tree.subtree_iter(node));
        }
        let mut none = self.tree.dfs_iter();
        none.nth(usize::MAX);
        DfsIter(none)
    }

    /// Iterates over a node and all below it in postorder.
    #[doc = contract!(BpTree::subtree_post_iter)]
    pub fn subtree_post_iter(&self, node: usize) -> PostIter<'_, BLOCK_SIZE> {
        PostIter(if self.has_node(node) { Some(self.tree.subtree_post_iter(node)) } else { None })
    }

    /// Iterates over the children of a node, from the first.
    #[doc = contract!(BpTree::children)]
    pub fn children(&self, node: usize) -> ChildrenIter<'_, BLOCK_SIZE, true> {
        ChildrenIter(if self.has_node(node) { Some(self.tree.children(node)) } else { None })
    }

    /// Iterates over the children of a node, from the last.
    #[doc = contract!(BpTree::rev_children)]
    pub fn rev_children(&self, node: usize) -> ChildrenIter<'_, BLOCK_SIZE, false> {
        ChildrenIter(if self.has_node(node) { Some(self.tree.rev_children(node)) } else { None })
    }
}

iterator! {
    /// Iterates over nodes of a [`BpTree`] in preorder. Their handles ascend.
    DfsIter ['a] ['a] = proved::DfsIter<'a, Global>, usize, |it| it.clone(),
    ascending |it| first_of(it), |it| last_of(it)
}

counted_iterator! { DfsIter ['a] ['a], usize }

iterator! {
    /// Iterates over nodes of a [`BpTree`] in postorder.
    PostIter ['a, const BLOCK_SIZE: usize] ['a, BLOCK_SIZE] = Option<proved::PostIter<'a, BLOCK_SIZE, Global>>, usize,
    |it| it.as_ref().map(|it| it.clone())
}

/// Iterates over the children of a node of a [`BpTree`]: from the first for `FORWARD`, else from the last.
#[must_use = "iterators do nothing unless they are used"]
pub struct ChildrenIter<'a, const BLOCK_SIZE: usize, const FORWARD: bool>(
    Option<proved::ChildrenIter<'a, BLOCK_SIZE, FORWARD, Global>>,
);

impl<const BLOCK_SIZE: usize, const FORWARD: bool> ChildrenIter<'_, BLOCK_SIZE, FORWARD> {
    /// Returns the next child, and adds the reads to `tally`.
    #[inline]
    pub fn next_counted(&mut self, tally: &mut Tally) -> Option<usize> {
        self.0.as_mut()?.next_counted(&mut tally.0)
    }
}

impl<const BLOCK_SIZE: usize, const FORWARD: bool> Iterator for ChildrenIter<'_, BLOCK_SIZE, FORWARD> {
    type Item = usize;

    #[inline(always)]
    fn next(&mut self) -> Option<usize> {
        self.0.as_mut()?.next()
    }
}

impl<const BLOCK_SIZE: usize, const FORWARD: bool> std::iter::FusedIterator for ChildrenIter<'_, BLOCK_SIZE, FORWARD> {}

impl<const BLOCK_SIZE: usize, const FORWARD: bool> fmt::Debug for ChildrenIter<'_, BLOCK_SIZE, FORWARD> {
    fn fmt(&self, f: &mut fmt::Formatter<'_>) -> fmt::Result {
        f.debug_struct("ChildrenIter").finish_non_exhaustive()
    }
}

/// Forms of queries that count what they read, of any list of parentheses.
macro_rules! counted_searches {
    ($($call:ident, $of:ident($($arg:ident: $kind:ty),*) -> $answer:ty;)*) => {
        /// Calls that count their reads: each does the same as the call without `_counted`.
        impl<const BLOCK_SIZE: usize> BpTree<BLOCK_SIZE> {
            $(
                #[doc = crate::items::counts!($of)]
                #[doc = contract!(BpTree::$call)]
                #[inline]
                pub fn $call(&self, $($arg: $kind,)* tally: &mut Tally) -> $answer {
                    self.tree.$call($($arg,)* &mut tally.0)
                }
            )*
        }
    };
}

counted_searches! {
    fwd_search_counted, fwd_search(i: usize, r: i64) -> Option<usize>;
    bwd_search_counted, bwd_search(i: usize, r: i64) -> Option<usize>;
    close_counted, close(i: usize) -> Option<usize>;
    open_counted, open(i: usize) -> Option<usize>;
    enclose_counted, enclose(i: usize) -> Option<usize>;
    is_open_counted, is_open(i: usize) -> Option<bool>;
    node_handle_counted, node_handle(i: usize) -> usize;
    is_balanced_counted, is_balanced() -> bool;
    has_node_counted, has_node(position: usize) -> bool;
}

/// Forms of queries of nodes and levels that count what they read, under a condition.
macro_rules! counted_nodes {
    ($tree:ident, $condition:expr; $($call:ident, $of:ident($($arg:ident: $kind:ty),*) -> $answer:ty;)*) => {
        /// Calls that count their reads: each does the same as the call without `_counted`, and panics if there is no
        /// such node.
        impl<const BLOCK_SIZE: usize> BpTree<BLOCK_SIZE> {
            $(
                #[doc = concat!("Does the same as `", stringify!($of), "`, and adds the reads to `tally`.")]
                ///
                /// # Panics
                /// If the parentheses aren't balanced, or a position that is given has no node.
                #[doc = contract!(BpTree::$call)]
                #[inline]
                #[track_caller]
                pub fn $call(&self, $($arg: $kind,)* tally: &mut Tally) -> $answer {
                    let $tree = self;
                    assert!($condition, "the parentheses have no such node");
                    self.tree.$call($($arg,)* &mut tally.0)
                }
            )*
        }
    };
}

counted_nodes! { tree, tree.has_node(node);
    parent_counted, parent(node: usize) -> Option<usize>;
    first_child_counted, first_child(node: usize) -> Option<usize>;
    last_child_counted, last_child(node: usize) -> Option<usize>;
    next_sibling_counted, next_sibling(node: usize) -> Option<usize>;
    previous_sibling_counted, previous_sibling(node: usize) -> Option<usize>;
    is_leaf_counted, is_leaf(node: usize) -> bool;
    node_index_counted, node_index(node: usize) -> usize;
    depth_counted, depth(node: usize) -> u64;
    subtree_size_counted, subtree_size(node: usize) -> Option<usize>;
    level_ancestor_counted, level_ancestor(node: usize, levels: u64) -> Option<usize>;
    level_next_counted, level_next(node: usize) -> Option<usize>;
    level_prev_counted, level_prev(node: usize) -> Option<usize>;
}

counted_nodes! { tree, tree.has_node(ancestor) && tree.has_node(descendant);
    is_ancestor_counted, is_ancestor(ancestor: usize, descendant: usize) -> Option<bool>;
}

counted_nodes! { tree, tree.is_balanced();
    level_leftmost_counted, level_leftmost(depth: u64) -> Option<usize>;
    level_rightmost_counted, level_rightmost(depth: u64) -> Option<usize>;
}

impl<const BLOCK_SIZE: usize> BpTree<BLOCK_SIZE> {
    /// Does the same as [`excess`](Self::excess), and adds the reads to `tally`.
    ///
    /// # Panics
    /// If `i` is past the end.
    #[doc = contract!(BpTree::excess_counted)]
    #[inline]
    #[track_caller]
    pub fn excess_counted(&self, i: usize, tally: &mut Tally) -> i64 {
        assert!(i < self.tree.len(), "the tree has no position {}", i);
        self.tree.excess_counted(i, &mut tally.0)
    }

    /// Returns `position` if it has a one.
    #[inline]
    fn opening(&self, position: usize) -> Option<usize> {
        if self.tree.is_open(position)? {
            Some(position)
        } else {
            None
        }
    }
}

// Below, a query of a position without a node answers what its definition says of the parentheses.
impl<const BLOCK_SIZE: usize> Tree for BpTree<BLOCK_SIZE> {
    type NodeHandle = usize;

    /// Returns the first root, or `None` if there are no parentheses. O(1).
    #[doc = contract!(BpTree::root)]
    fn root(&self) -> Option<usize> {
        self.tree.root()
    }

    /// Returns the parent of a node, or `None` for a root. O(log `len`).
    ///
    /// If no node opens at `node`, returns [`enclose`](Self::enclose) of that position.
    ///
    /// # Panics
    /// With debug assertions, if the bit at `node` isn't a one.
    #[doc = contract!(BpTree::parent)]
    #[inline]
    #[track_caller]
    fn parent(&self, node: usize) -> Option<usize> {
        if self.has_node(node) {
            return self.tree.parent(node);
        }
        self.assert_node(node);
        self.tree.enclose(node)
    }

    /// Returns the first child of a node, or `None` for a leaf. O(1).
    ///
    /// If no node opens at `node`, returns the next position if that has a one.
    ///
    /// # Panics
    /// With debug assertions, if the bit at `node` isn't a one.
    #[doc = contract!(BpTree::first_child)]
    #[inline]
    #[track_caller]
    fn first_child(&self, node: usize) -> Option<usize> {
        if self.has_node(node) {
            return self.tree.first_child(node);
        }
        self.assert_node(node);
        self.opening(node.checked_add(1)?)
    }

    /// Returns the next node with the same parent, or `None` for the last one. O(log `len`).
    ///
    /// If no node opens at `node`, returns the position after its [`close`](Self::close) if that has a one.
    ///
    /// # Panics
    /// With debug assertions, if the bit at `node` isn't a one.
    #[doc = contract!(BpTree::next_sibling)]
    #[inline]
    #[track_caller]
    fn next_sibling(&self, node: usize) -> Option<usize> {
        if self.has_node(node) {
            return self.tree.next_sibling(node);
        }
        self.assert_node(node);
        self.opening(self.tree.close(node)? + 1)
    }

    /// Returns the previous node with the same parent, or `None` for the first one. O(log `len`).
    ///
    /// If no node opens at `node`, returns [`open`](Self::open) of the position before if that has a zero.
    ///
    /// # Panics
    /// With debug assertions, if the bit at `node` isn't a one.
    #[doc = contract!(BpTree::previous_sibling)]
    #[inline]
    #[track_caller]
    fn previous_sibling(&self, node: usize) -> Option<usize> {
        if self.has_node(node) {
            return self.tree.previous_sibling(node);
        }
        self.assert_node(node);
        let before = node.checked_sub(1)?;
        if self.tree.is_open(before)? {
            return None;
        }
        self.tree.open(before)
    }

    /// Returns the last child of a node, or `None` for a leaf. O(log `len`).
    ///
    /// If no node opens at `node`, returns [`open`](Self::open) of the position before its [`close`](Self::close) if
    /// the next position has a one.
    ///
    /// # Panics
    /// With debug assertions, if the bit at `node` isn't a one.
    #[doc = contract!(BpTree::last_child)]
    #[inline]
    #[track_caller]
    fn last_child(&self, node: usize) -> Option<usize> {
        if self.has_node(node) {
            return self.tree.last_child(node);
        }
        self.assert_node(node);
        self.opening(node.checked_add(1)?)?;
        self.tree.open(self.tree.close(node)?.checked_sub(1)?)
    }

    /// Returns the index of a node in preorder, from 0. O(1).
    ///
    /// If no node opens at `node`, returns the number of ones before that position.
    ///
    /// # Panics
    /// With debug assertions, if the bit at `node` isn't a one.
    #[doc = contract!(BpTree::node_index)]
    #[inline]
    #[track_caller]
    fn node_index(&self, node: usize) -> usize {
        if self.has_node(node) {
            return self.tree.node_index(node);
        }
        self.assert_node(node);
        self.ones_before(node.min(self.tree.len()))
    }

    /// Returns the position of the `index`-th one, from 0, or the number of parentheses if there is none.
    #[doc = contract!(BpTree::node_handle)]
    #[inline]
    fn node_handle(&self, i: usize) -> usize {
        self.tree.node_handle(i)
    }

    /// Returns true if a node has no children. O(1).
    ///
    /// If no node opens at `node`, returns true if the next position has a zero.
    ///
    /// # Panics
    /// With debug assertions, if the bit at `node` isn't a one.
    #[doc = contract!(BpTree::is_leaf)]
    #[inline]
    #[track_caller]
    fn is_leaf(&self, node: usize) -> bool {
        if self.has_node(node) {
            return self.tree.is_leaf(node);
        }
        self.assert_node(node);
        self.tree.is_open(node.saturating_add(1)) == Some(false)
    }

    /// Returns the number of ancestors of a node: 0 for a root. O(1).
    ///
    /// If no node opens at `node`, returns the [`excess`](Self::excess) up to that position less 1, or 0 if that is
    /// negative.
    ///
    /// # Panics
    /// With debug assertions, if the bit at `node` isn't a one.
    #[doc = contract!(BpTree::depth)]
    #[inline]
    #[track_caller]
    fn depth(&self, node: usize) -> u64 {
        if self.has_node(node) {
            return self.tree.depth(node);
        }
        self.assert_node(node);
        self.excess_before(node.saturating_add(1).min(self.tree.len())).saturating_sub(1).max(0) as u64
    }

    /// Returns the number of nodes, or of ones if the parentheses aren't balanced. O(1).
    #[doc = contract!(BpTree::size)]
    #[inline]
    fn size(&self) -> usize {
        self.tree.size()
    }

    /// Returns true if there are no parentheses. O(1).
    #[doc = contract!(BpTree::is_empty)]
    fn is_empty(&self) -> bool {
        self.tree.is_empty()
    }
}

impl<const BLOCK_SIZE: usize> IsAncestor for BpTree<BLOCK_SIZE> {
    /// Returns true if the first node is an ancestor of the second, or the same node. O(log `len`).
    ///
    /// If no node opens at one of them, returns true if `descendant` is from `ancestor` on and before its
    /// [`close`](Self::close). `None` if there is no such zero.
    ///
    /// # Panics
    /// With debug assertions, if the bit at one of the positions isn't a one.
    #[doc = contract!(BpTree::is_ancestor)]
    #[inline]
    #[track_caller]
    fn is_ancestor(&self, ancestor: usize, descendant: usize) -> Option<bool> {
        if self.has_node(ancestor) && self.has_node(descendant) {
            return self.tree.is_ancestor(ancestor, descendant);
        }
        self.assert_node(ancestor);
        self.assert_node(descendant);
        let close = self.tree.close(ancestor)?;
        Some(ancestor <= descendant && descendant < close)
    }
}

impl<const BLOCK_SIZE: usize> LevelTree for BpTree<BLOCK_SIZE> {
    /// Returns the ancestor that is `levels` levels above a node: the node itself for 0. `None` if there is none. O(log
    /// `len`).
    ///
    /// If no node opens at `node`, returns that position for 0, and otherwise [`bwd_search`](Self::bwd_search) from it
    /// for `-levels`.
    #[doc = contract!(BpTree::level_ancestor)]
    #[inline]
    fn level_ancestor(&self, node: usize, levels: u64) -> Option<usize> {
        if self.has_node(node) {
            return self.tree.level_ancestor(node, levels);
        }
        match i64::try_from(levels).ok()? {
            0 => Some(node),
            levels => self.tree.bwd_search(node, -levels),
        }
    }

    /// Returns the next node of the same depth, or `None` for the last one. O(log `len`).
    ///
    /// If no node opens at `node`, returns [`fwd_search`](Self::fwd_search) from its [`close`](Self::close) for 1.
    ///
    /// # Panics
    /// With debug assertions, if the bit at `node` isn't a one.
    #[doc = contract!(BpTree::level_next)]
    #[inline]
    #[track_caller]
    fn level_next(&self, node: usize) -> Option<usize> {
        if self.has_node(node) {
            return self.tree.level_next(node);
        }
        self.assert_node(node);
        self.tree.fwd_search(self.tree.close(node)?, 1)
    }

    /// Returns the previous node of the same depth, or `None` for the first one. O(log `len`).
    ///
    /// If no node opens at `node`, returns [`open`](Self::open) of [`bwd_search`](Self::bwd_search) from that position
    /// for 1.
    ///
    /// # Panics
    /// With debug assertions, if the bit at `node` isn't a one.
    #[doc = contract!(BpTree::level_prev)]
    #[inline]
    #[track_caller]
    fn level_prev(&self, node: usize) -> Option<usize> {
        if self.has_node(node) {
            return self.tree.level_prev(node);
        }
        self.assert_node(node);
        self.tree.open(self.tree.bwd_search(node, 1)?)
    }

    /// Returns the first node of a depth, or `None` if no node is so deep. O(log `len`).
    ///
    /// If the parentheses aren't balanced, returns position 0 for depth 0, and otherwise
    /// [`fwd_search`](Self::fwd_search) from there for `depth`.
    #[doc = contract!(BpTree::level_leftmost)]
    fn level_leftmost(&self, depth: u64) -> Option<usize> {
        if self.balanced {
            return self.tree.level_leftmost(depth);
        }
        match i64::try_from(depth).ok()? {
            0 => Some(0),
            depth => self.tree.fwd_search(0, depth),
        }
    }

    /// Returns the last node of a depth, or `None` if no node is so deep. O(log `len`).
    ///
    /// If the parentheses aren't balanced, returns [`open`](Self::open) of [`bwd_search`](Self::bwd_search) from
    /// position `2 * size() - 1` for `depth`.
    #[doc = contract!(BpTree::level_rightmost)]
    fn level_rightmost(&self, depth: u64) -> Option<usize> {
        if self.balanced {
            return self.tree.level_rightmost(depth);
        }
        let last = self.size().checked_mul(2)?.checked_sub(1)?;
        self.tree.open(self.tree.bwd_search(last, i64::try_from(depth).ok()?)?)
    }
}

impl<const BLOCK_SIZE: usize> SubtreeSize for BpTree<BLOCK_SIZE> {
    /// Returns the number of nodes of the subtree of a node, itself included. O(log `len`).
    ///
    /// If no node opens at `node`, returns the number of ones from that position up to its [`close`](Self::close).
    /// `None` if there is no such zero.
    ///
    /// # Panics
    /// With debug assertions, if the bit at `node` isn't a one.
    #[doc = contract!(BpTree::subtree_size)]
    #[inline]
    #[track_caller]
    fn subtree_size(&self, node: usize) -> Option<usize> {
        if self.has_node(node) {
            return self.tree.subtree_size(node);
        }
        self.assert_node(node);
        Some(self.ones_before(self.tree.close(node)?) - self.ones_before(node))
    }
}

impl<const BLOCK_SIZE: usize> IntoIterator for BpTree<BLOCK_SIZE> {
    type Item = usize;
    type IntoIter = SelectIntoIter<false>;

    /// Iterates over all nodes in preorder.
    fn into_iter(self) -> SelectIntoIter<false> {
        self.into_parentheses_vec().into_iter1()
    }
}

impl<'a, const BLOCK_SIZE: usize> IntoIterator for &'a BpTree<BLOCK_SIZE> {
    type Item = usize;
    type IntoIter = DfsIter<'a>;

    /// Iterates over all nodes in preorder.
    fn into_iter(self) -> DfsIter<'a> {
        self.iter()
    }
}

impl<const BLOCK_SIZE: usize> From<BitVec> for BpTree<BLOCK_SIZE> {
    fn from(bits: BitVec) -> Self {
        Self::from_bit_vector(bits)
    }
}

impl<const BLOCK_SIZE: usize> From<BpTree<BLOCK_SIZE>> for BitVec {
    fn from(tree: BpTree<BLOCK_SIZE>) -> Self {
        tree.into_parentheses_vec().into_bit_vec()
    }
}

impl<const BLOCK_SIZE: usize> From<BpTree<BLOCK_SIZE>> for RsVec {
    fn from(tree: BpTree<BLOCK_SIZE>) -> Self {
        tree.into_parentheses_vec()
    }
}

impl<const BLOCK_SIZE: usize> Clone for BpTree<BLOCK_SIZE> {
    #[track_caller]
    fn clone(&self) -> Self {
        BpTree { tree: granted(crate::rattle::Clone::clone(&self.tree)), balanced: self.balanced }
    }
}

impl<const BLOCK_SIZE: usize> Default for BpTree<BLOCK_SIZE> {
    fn default() -> Self {
        Self::from_bit_vector(BitVec::new())
    }
}

impl<const BLOCK_SIZE: usize> PartialEq for BpTree<BLOCK_SIZE> {
    fn eq(&self, other: &Self) -> bool {
        self.tree.bits() == other.tree.bits()
    }
}

impl<const BLOCK_SIZE: usize> Eq for BpTree<BLOCK_SIZE> {}

impl<const BLOCK_SIZE: usize> Hash for BpTree<BLOCK_SIZE> {
    fn hash<H: Hasher>(&self, state: &mut H) {
        state.write_usize(self.tree.len());
        self.tree.dfs_iter().for_each(|node| state.write_usize(node));
    }
}

impl<const BLOCK_SIZE: usize> fmt::Debug for BpTree<BLOCK_SIZE> {
    fn fmt(&self, f: &mut fmt::Formatter<'_>) -> fmt::Result {
        crate::items::show(f, "BpTree", "parentheses", self.tree.len() as u64, self.tree.bits().iter())
    }
}

impl<const BLOCK_SIZE: usize> Saved for BpTree<BLOCK_SIZE> {
    fn save(&self) -> Result<Vec<u8>, SaveError> {
        crate::saved::bytes_of(&self.tree)
    }

    fn load(bytes: &[u8]) -> Result<Self, LoadError> {
        let bits = crate::proved::vers_saved::trees::load_parentheses_from_slice(Global, BLOCK_SIZE, bytes)?;
        Self::try_from_bit_vector(bits.into()).map_err(|_| LoadError::OutOfMemory)
    }
}

/// Builds a [`BpTree`] from a depth-first walk.
///
/// ```
/// use vers_vecs::{BpBuilder, BpTree, Tree, TreeBuilder};
///
/// let mut builder: BpBuilder = BpBuilder::new();
/// builder.enter_node();
/// builder.enter_node();
/// builder.leave_node();
/// builder.leave_node();
/// let tree: BpTree = builder.build().unwrap();
/// assert_eq!(tree.first_child(0), Some(1));
/// ```
pub struct BpBuilder<const BLOCK_SIZE: usize = DEFAULT_BLOCK_SIZE> {
    builder: proved::BpBuilder<BLOCK_SIZE, Global>,
}

impl<const BLOCK_SIZE: usize> BpBuilder<BLOCK_SIZE> {
    /// Makes a builder of no nodes.
    #[doc = contract!(BpBuilder::new)]
    #[must_use]
    pub fn new() -> Self {
        let () = BpTree::<BLOCK_SIZE>::BLOCK_SIZE_FITS;
        BpBuilder { builder: proved::BpBuilder::new(Global) }
    }

    /// Makes a builder of no nodes, with room for `nodes` of them.
    ///
    /// # Panics
    /// If the allocation fails.
    #[doc = contract!(BpBuilder::with_capacity)]
    #[must_use]
    #[track_caller]
    pub fn with_capacity(nodes: u64) -> Self {
        let () = BpTree::<BLOCK_SIZE>::BLOCK_SIZE_FITS;
        BpBuilder { builder: granted(proved::BpBuilder::with_capacity(Global, nodes)) }
    }
}

impl<const BLOCK_SIZE: usize> Default for BpBuilder<BLOCK_SIZE> {
    fn default() -> Self {
        Self::new()
    }
}

impl<const BLOCK_SIZE: usize> fmt::Debug for BpBuilder<BLOCK_SIZE> {
    fn fmt(&self, f: &mut fmt::Formatter<'_>) -> fmt::Result {
        f.debug_struct("BpBuilder").finish_non_exhaustive()
    }
}

impl<const BLOCK_SIZE: usize> TreeBuilder for BpBuilder<BLOCK_SIZE> {
    type Tree = BpTree<BLOCK_SIZE>;

    /// Enters a node: a child of the node entered last and not left, or else a root.
    ///
    /// # Panics
    /// If there is no memory.
    #[doc = contract!(BpBuilder::enter_node)]
    #[track_caller]
    fn enter_node(&mut self) {
        granted(self.builder.enter_node());
    }

    /// Leaves the node that was entered last and not left. If there is none, the parentheses aren't balanced.
    ///
    /// # Panics
    /// If there is no memory.
    #[doc = contract!(BpBuilder::leave_node)]
    #[track_caller]
    fn leave_node(&mut self) {
        granted(self.builder.leave_node());
    }

    /// Builds the tree, in O(nodes).
    ///
    /// # Errors
    /// If nodes were entered and left unequally often: how many more were entered, or below 0 how many more were left.
    /// A node that is left before it is entered is no error: [`is_balanced`](BpTree::is_balanced) returns false then.
    ///
    /// # Panics
    /// If there is no memory for the index.
    #[doc = contract!(BpBuilder::build)]
    #[track_caller]
    fn build(self) -> Result<BpTree<BLOCK_SIZE>, i64> {
        match self.builder.build() {
            Ok(tree) => Ok(BpTree::of(tree)),
            Err(proved::BuildError::Excess(excess)) => Err(excess),
            Err(proved::BuildError::Memory) => granted(Err(BuildError::OutOfMemory)),
        }
    }
}
