//! Trees, as lists of balanced parentheses.

use crate::contracts::contract;

pub mod bp;

/// A tree whose nodes are named by handles.
pub trait Tree {
    /// The handle of a node.
    type NodeHandle;

    /// Returns the first root, or `None` if there are no nodes.
    #[doc = contract!(Tree::root)]
    fn root(&self) -> Option<Self::NodeHandle>;

    /// Returns the parent of a node, or `None` for a root.
    #[doc = contract!(Tree::parent)]
    fn parent(&self, node: Self::NodeHandle) -> Option<Self::NodeHandle>;

    /// Returns the first child of a node, or `None` for a leaf.
    #[doc = contract!(Tree::first_child)]
    fn first_child(&self, node: Self::NodeHandle) -> Option<Self::NodeHandle>;

    /// Returns the next node with the same parent, or `None` for the last one.
    #[doc = contract!(Tree::next_sibling)]
    fn next_sibling(&self, node: Self::NodeHandle) -> Option<Self::NodeHandle>;

    /// Returns the previous node with the same parent, or `None` for the first one.
    #[doc = contract!(Tree::previous_sibling)]
    fn previous_sibling(&self, node: Self::NodeHandle) -> Option<Self::NodeHandle>;

    /// Returns the last child of a node, or `None` for a leaf.
    #[doc = contract!(Tree::last_child)]
    fn last_child(&self, node: Self::NodeHandle) -> Option<Self::NodeHandle>;

    /// Returns the index of a node in preorder, from 0.
    #[doc = contract!(Tree::node_index)]
    fn node_index(&self, node: Self::NodeHandle) -> usize;

    /// Returns the node of an index in preorder.
    #[doc = contract!(Tree::node_handle)]
    fn node_handle(&self, index: usize) -> Self::NodeHandle;

    /// Returns true if a node has no children.
    #[doc = contract!(Tree::is_leaf)]
    fn is_leaf(&self, node: Self::NodeHandle) -> bool;

    /// Returns the number of ancestors of a node: 0 for a root.
    #[doc = contract!(Tree::depth)]
    fn depth(&self, node: Self::NodeHandle) -> u64;

    /// Returns the number of nodes.
    #[doc = contract!(Tree::size)]
    fn size(&self) -> usize;

    /// Returns true if there are no nodes.
    #[doc = contract!(Tree::is_empty)]
    fn is_empty(&self) -> bool {
        self.size() == 0
    }
}

/// A tree that counts the nodes below one.
pub trait SubtreeSize: Tree {
    /// Returns the number of nodes of the subtree of a node, itself included.
    #[doc = contract!(SubtreeSize::subtree_size)]
    fn subtree_size(&self, node: Self::NodeHandle) -> Option<usize>;
}

/// A tree that compares nodes by descent.
pub trait IsAncestor: Tree {
    /// Returns true if the first node is an ancestor of the second, or the same node.
    #[doc = contract!(IsAncestor::is_ancestor)]
    fn is_ancestor(&self, ancestor: Self::NodeHandle, descendant: Self::NodeHandle) -> Option<bool>;
}

/// A tree that finds nodes by depth. Roots have depth 0.
pub trait LevelTree: Tree {
    /// Returns the ancestor that is `levels` levels above a node: the node itself for 0. `None` if there is none.
    #[doc = contract!(LevelTree::level_ancestor)]
    fn level_ancestor(&self, node: Self::NodeHandle, levels: u64) -> Option<Self::NodeHandle>;

    /// Returns the next node of the same depth, or `None` for the last one.
    #[doc = contract!(LevelTree::level_next)]
    fn level_next(&self, node: Self::NodeHandle) -> Option<Self::NodeHandle>;

    /// Returns the previous node of the same depth, or `None` for the first one.
    #[doc = contract!(LevelTree::level_prev)]
    fn level_prev(&self, node: Self::NodeHandle) -> Option<Self::NodeHandle>;

    /// Returns the first node of a depth, or `None` if no node is so deep.
    #[doc = contract!(LevelTree::level_leftmost)]
    fn level_leftmost(&self, depth: u64) -> Option<Self::NodeHandle>;

    /// Returns the last node of a depth, or `None` if no node is so deep.
    #[doc = contract!(LevelTree::level_rightmost)]
    fn level_rightmost(&self, depth: u64) -> Option<Self::NodeHandle>;
}

/// A builder of trees from a depth-first walk.
pub trait TreeBuilder {
    /// The tree that is built.
    type Tree;

    /// Enters a node: a child of the node entered last and not left, or else a root.
    #[doc = contract!(TreeBuilder::enter_node)]
    fn enter_node(&mut self);

    /// Leaves the node that was entered last and not left. If there is none, the parentheses aren't balanced.
    #[doc = contract!(TreeBuilder::leave_node)]
    fn leave_node(&mut self);

    /// Builds the tree.
    ///
    /// # Errors
    /// If nodes were entered and left unequally often: how many more were entered, or below 0 how many more were left.
    #[doc = contract!(TreeBuilder::build)]
    fn build(self) -> Result<Self::Tree, i64>;
}
