//! The construction of a wavelet tree, from its root on.

use crate::rattle::prelude::*;

use crate::proved::wavelet_tree::node::{LEAVES, Node};
use crate::proved::wavelet_tree::part::divide;
use crate::rattle::AllocError;
use crate::rattle::Allocator;
use crate::proved::vers_bits::bit_vec::BitVec;
use crate::proved::vers_wavelet::wavelet::Integer;
use crate::proved::word_rank::WordRank;

// The nodes and bits of a tree so far, and the number of ones.
pub(crate) struct Grown<A: Allocator + Copy> {
    pub(crate) nodes: Vec<Node, A>,
    pub(crate) bits: BitVec<A>,
    pub(crate) ones: usize,
}

// The link to a tree, and where its positions begin.
#[derive(Clone, Copy)]
pub(crate) struct Subtree {
    pub(crate) link: u32,
    pub(crate) entry: u64,
}

// The nodes and bits of a whole tree, and the link to its root.
pub(crate) struct Forks<A: Allocator + Copy> {
    pub(crate) nodes: Vec<Node, A>,
    pub(crate) bits: WordRank<A>,
    pub(crate) root: u32,
}

// Returns the nodes and bits of the tree of all symbols below a limit for some elements. Adds a bit, so that the end of
// the others is a position too.
pub(crate) fn forks_of<T: Integer, A: Allocator + Copy>(
    alloc: A,
    starts: &[u64],
    limit: usize,
    mut items: Vec<T, A>,
) -> Result<Forks<A>, AllocError> {
    let mut scratch = Vec::from_slice(alloc, items.as_slice())?;
    let need = need_of(starts, 0, limit);
    let nodes = Vec::with_capacity(alloc, need.forks)?;
    let bits = no_bits(alloc, need.bits.saturating_add(1))?;
    let mut grown = Grown {
        nodes,
        bits,
        ones: 0,
    };
    let tree = grow(
        starts,
        0,
        limit,
        items.as_mut_slice(),
        scratch.as_mut_slice(),
        &mut grown,
    )?;
    let Grown { nodes, bits, .. } = grown;
    let bits = ended(bits)?;
    Ok(Forks {
        nodes,
        bits,
        root: tree.link,
    })
}

// Returns an empty list with room for `n` bits.
fn no_bits<A: Allocator + Copy>(alloc: A, n: usize) -> Result<BitVec<A>, AllocError> {
    match BitVec::with_capacity(alloc, n) {
        Ok(bits) => Ok(bits),
        Err(_) => Err(AllocError),
    }
}

// Returns the same bits and a zero after them, with rank.
pub(crate) fn ended<A: Allocator + Copy>(mut bits: BitVec<A>) -> Result<WordRank<A>, AllocError> {
    if bits.append(false).is_err() {
        return Err(AllocError);
    }
    // A list has fewer bits than 2^64.
    let _ = bits.len();
    WordRank::from_bit_vec(bits)
}

// The number of forks of a tree, and that of their bits.
#[derive(Clone, Copy)]
pub(crate) struct Need {
    pub(crate) forks: usize,
    pub(crate) bits: usize,
}

// Returns what the tree of some symbols needs, from `low` on and before `end`, so that it is allocated at once.
pub(crate) fn need_of(starts: &[u64], low: usize, end: usize) -> Need {
    let split = split_of(starts, low, end);
    if starts[split] == starts[end] {
        return Need { forks: 0, bits: 0 };
    }
    let left = need_of(starts, low, split);
    let right = need_of(starts, split, end);
    let own = starts[end].saturating_sub(starts[low]) as usize;
    Need {
        forks: left.forks.saturating_add(right.forks).saturating_add(1),
        bits: left.bits.saturating_add(right.bits).saturating_add(own),
    }
}

// Appends the nodes and bits of the tree of some symbols, from `low` on and before `end`, for the elements that are
// these symbols, and reorders the elements.
pub(crate) fn grow<T: Integer, A: Allocator + Copy>(
    starts: &[u64],
    low: usize,
    end: usize,
    items: &mut [T],
    scratch: &mut [T],
    grown: &mut Grown<A>,
) -> Result<Subtree, AllocError> {
    let split = split_of(starts, low, end);
    if starts[split] == starts[end] {
        return Ok(Subtree {
            link: LEAVES + (split - 1) as u32,
            entry: starts[split - 1],
        });
    }
    let start = grown.bits.len();
    let ones = grown.ones;
    let low_len = divide(items, scratch, split, grown)?;
    let (low_items, high_items) = items.split_at_mut(low_len);
    let left = grow(starts, low, split, low_items, scratch, grown)?;
    let right = grow(starts, split, end, high_items, scratch, grown)?;
    let node = Node {
        low: left.entry.wrapping_sub((start - ones) as u64),
        high: right.entry.wrapping_sub(ones as u64),
        low_link: left.link,
        high_link: right.link,
        split: split as u32,
    };
    let link = add_node(&mut grown.nodes, node)?;
    Ok(Subtree {
        link,
        entry: start as u64,
    })
}

// Appends a node, and returns the link to it. Errors: `AllocError` also if there are as many nodes as there may be
// symbols.
pub(crate) fn add_node<A: Allocator + Copy>(
    nodes: &mut Vec<Node, A>,
    node: Node,
) -> Result<u32, AllocError> {
    let link = nodes.len();
    if link >= LEAVES as usize {
        return Err(AllocError);
    }
    nodes.push(node)?;
    Ok(link as u32)
}

// Returns where some symbols are divided, from `low` on and before `end`.
pub(crate) fn split_of(starts: &[u64], low: usize, end: usize) -> usize {
    let elements = starts[low] + starts[end];
    let symbol = half_of(starts, elements, low + 1, end);
    if elements < starts[symbol - 1] + starts[symbol] {
        symbol - 1
    } else {
        symbol
    }
}

// Returns the first symbol, from `low` on and before `end`, that has at least half of the elements below it, or `end`.
fn half_of(starts: &[u64], elements: u64, low: usize, end: usize) -> usize {
    for symbol in low..end {
        if 2 * starts[symbol] >= elements {
            return symbol;
        }
    }
    end
}
