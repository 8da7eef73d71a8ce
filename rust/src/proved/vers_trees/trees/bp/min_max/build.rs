//! Construction of the tree of excesses of a list, from its blocks up to the root.

use crate::rattle::prelude::*;

use crate::proved::vers_trees::trees::bp::bytes::ByteTables;
use crate::proved::vers_trees::trees::bp::min_max::Node;
use crate::proved::vers_trees::trees::bp::scan::node_of;
use crate::rattle::AllocError;
use crate::rattle::Allocator;
use crate::proved::vers_bits::bit_vec::BitVec;

// Returns the least power of two, from 2, that is at least the number.
pub(super) fn width(leaves: usize) -> usize {
    let mut width = 2;
    while width < leaves {
        width *= 2;
    }
    width
}

// Returns the nodes of the blocks of `size` bits, after `first` nodes that are still to be filled.
fn leaves_of<A: Allocator + Copy>(
    bits: &BitVec<A>,
    tables: &ByteTables,
    size: usize,
    first: usize,
) -> Result<Vec<Node, A>, AllocError> {
    let leaves = bits.len().div_ceil(size);
    let mut nodes = Vec::with_capacity(bits.allocator(), first.saturating_add(leaves))?;
    nodes.resize(first, Node::empty())?;
    push_blocks(&mut nodes, bits, tables, size, first)?;
    Ok(nodes)
}

// Appends the nodes of the blocks of `size` bits to `first` others.
fn push_blocks<A: Allocator + Copy>(
    nodes: &mut Vec<Node, A>,
    bits: &BitVec<A>,
    tables: &ByteTables,
    size: usize,
    first: usize,
) -> Result<(), AllocError> {
    let len = bits.len();
    let leaves = len.div_ceil(size);
    for block in 0..leaves {
        let start = block * size;
        let end = (start + size).min(len);
        nodes.push(node_of(bits, tables, start, end))?;
    }
    Ok(())
}

// Returns the nodes of the tree over the blocks of `size` bits of a nonempty list.
pub(super) fn nodes_over<A: Allocator + Copy>(
    bits: &BitVec<A>,
    tables: &ByteTables,
    size: usize,
    first: usize,
) -> Result<Vec<Node, A>, AllocError> {
    let mut nodes = leaves_of(bits, tables, size, first)?;
    fill(&mut nodes, first);
    Ok(nodes)
}

// Returns the node over two adjacent parts.
fn joined(left: Node, right: Node) -> Node {
    if right.least > right.greatest {
        return left;
    }
    left.followed_by(right)
}

// Returns node `i`, not counted, or one over no block past the end.
fn node_or_empty(nodes: &[Node], i: usize) -> Node {
    if i < nodes.len() {
        nodes[i]
    } else {
        Node::empty()
    }
}

// Fills the `first` nodes above the leaves.
fn fill(nodes: &mut [Node], first: usize) {
    let mut i = first;
    while i > 0 {
        i -= 1;
        let left = node_or_empty(nodes, 2 * i + 1);
        let right = node_or_empty(nodes, 2 * i + 2);
        nodes[i] = joined(left, right);
    }
}
