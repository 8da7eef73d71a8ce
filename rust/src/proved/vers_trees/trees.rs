//! Ordered trees: queries of the nodes of a forest, and builders.

use crate::rattle::prelude::*;

pub mod bp;

use crate::proved::vers_trees::trees::bp::BuildError;
use crate::proved::vers_bits::bit_vec::GrowError;

/// A tree, or several side by side, whose handles name the nodes of an ordered forest.
///
/// Contracts use three properties of a type: when its value represents a forest, which forest that is, and the
/// position at which the node of a handle opens in the parentheses of the forest.
pub trait Tree {
    type NodeHandle;

    /// Returns the first root, or `None` if there are no nodes.
    fn root(&self) -> Option<Self::NodeHandle>;

    /// Returns the parent of a node, or `None` for a root.
    fn parent(&self, node: Self::NodeHandle) -> Option<Self::NodeHandle>;

    /// Returns the first child of a node, or `None` for a leaf.
    fn first_child(&self, node: Self::NodeHandle) -> Option<Self::NodeHandle>;

    /// Returns the next node with the same parent; roots are siblings. `None` for the last of them.
    fn next_sibling(&self, node: Self::NodeHandle) -> Option<Self::NodeHandle>;

    /// Returns the previous node with the same parent; roots are siblings. `None` for the first of them.
    fn previous_sibling(&self, node: Self::NodeHandle) -> Option<Self::NodeHandle>;

    /// Returns the last child of a node, or `None` for a leaf.
    fn last_child(&self, node: Self::NodeHandle) -> Option<Self::NodeHandle>;

    /// Returns the number of a node in preorder (from 0).
    fn node_index(&self, node: Self::NodeHandle) -> usize;

    /// Returns the node with this number in preorder (from 0). If there is none, the handle's position is the
    /// end of the forest's parentheses, where no node opens.
    fn node_handle(&self, index: usize) -> Self::NodeHandle;

    /// Returns true if a node has no children.
    fn is_leaf(&self, node: Self::NodeHandle) -> bool;

    /// Returns the depth of a node, the number of its proper ancestors: 0 for a root.
    fn depth(&self, node: Self::NodeHandle) -> u64;

    /// Returns the number of nodes.
    fn size(&self) -> usize;

    /// Returns true if there are no nodes.
    fn is_empty(&self) -> bool {
        self.size() == 0
    }
}

/// A tree with subtree sizes.
pub trait SubtreeSize: Tree {
    /// Returns the number of nodes in the subtree of a node, including itself. Never `None`.
    fn subtree_size(&self, node: Self::NodeHandle) -> Option<usize>;
}

/// A tree with a test for ancestors.
pub trait IsAncestor: Tree {
    /// Returns true if the first node is an ancestor of the second; each node is its own. Never `None`.
    fn is_ancestor(&self, ancestor: Self::NodeHandle, descendant: Self::NodeHandle) -> Option<bool>;
}

/// A tree with queries of its levels; roots have depth 0.
pub trait LevelTree: Tree {
    /// Returns the ancestor of a node `levels` levels up, itself at 0. `None` if there is none.
    fn level_ancestor(&self, node: Self::NodeHandle, levels: u64) -> Option<Self::NodeHandle>;

    /// Returns the next node of the same depth, or `None` if there is none.
    fn level_next(&self, node: Self::NodeHandle) -> Option<Self::NodeHandle>;

    /// Returns the previous node of the same depth, or `None` if there is none.
    fn level_prev(&self, node: Self::NodeHandle) -> Option<Self::NodeHandle>;

    /// Returns the first node of a depth, or `None` if no node has that depth.
    fn level_leftmost(&self, depth: u64) -> Option<Self::NodeHandle>;

    /// Returns the last node of a depth, or `None` if no node has that depth.
    fn level_rightmost(&self, depth: u64) -> Option<Self::NodeHandle>;
}

/// A builder of a tree from entering and leaving the nodes of a forest, in the order of its parentheses.
///
/// Contracts use the steps so far, true if a node was entered and false if one was left, and the greatest
/// number of steps of a builder.
pub trait TreeBuilder {
    type Tree: Tree;

    /// Enters a node.
    ///
    /// # Errors
    ///
    /// `TooLong` only if the builder has its greatest number of steps; `Memory` if the allocator refuses a
    /// request.
    fn enter_node(&mut self) -> Result<(), GrowError>;

    /// Leaves a node.
    ///
    /// # Errors
    ///
    /// `TooLong` only if the builder has its greatest number of steps; `Memory` if the allocator refuses a
    /// request.
    fn leave_node(&mut self) -> Result<(), GrowError>;

    /// Returns the tree of the forest that the steps represent.
    ///
    /// # Errors
    ///
    /// `Excess` with the number of nodes entered minus the number left, if these differ; `Memory` if the
    /// allocator refuses a request.
    fn build(self) -> Result<Self::Tree, BuildError>;
}
