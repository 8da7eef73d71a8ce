//! The construction of a wavelet tree from its bits.

use crate::rattle::prelude::*;

use crate::proved::wavelet_tree::fault::PartsError;
use crate::proved::wavelet_tree::grow::{Forks, add_node, ended, need_of, split_of};
use crate::proved::wavelet_tree::node::{LEAVES, Node};
use crate::proved::wavelet_tree::starts::symbol_limit;
use crate::rattle::Allocator;
use crate::proved::vers_bits::bit_vec::BitVec;
use crate::proved::word_rank::WordRank;

// The greatest number of elements.
const MOST_ELEMENTS: u64 = 9_223_372_036_854_775_807;

// Returns true if these are the numbers of lesser elements of a list of symbols of `width` bits.
pub(crate) fn are_starts(starts: &[u64], width: u16) -> bool {
    if width > 16 {
        return false;
    }
    let limit = symbol_limit(width);
    if starts.len() != limit + 1 || starts[0] != 0 || starts[limit] > MOST_ELEMENTS {
        return false;
    }
    ascend(starts)
}

// Returns true if no number exceeds the next.
fn ascend(starts: &[u64]) -> bool {
    for k in 1..starts.len() {
        if starts[k] < starts[k - 1] {
            return false;
        }
    }
    true
}

// Returns the nodes of the tree of all symbols below a limit whose bits these are, and the bits with a zero after them.
pub(crate) fn forks_in<A: Allocator + Copy>(
    starts: &[u64],
    limit: usize,
    bits: BitVec<A>,
) -> Result<Forks<A>, PartsError> {
    let len = bits.len();
    let need = need_of(starts, 0, limit);
    let mut nodes = Vec::with_capacity(bits.allocator(), need.forks)?;
    let bits = ended(bits)?;
    let tree = rebuild(starts, 0, limit, &bits, 0, &mut nodes)?;
    if tree.end != len {
        return Err(PartsError::NotAList);
    }
    Ok(Forks {
        nodes,
        bits,
        root: tree.link,
    })
}

// The link to a tree, where its positions begin, and where its bits end.
#[derive(Clone, Copy)]
struct Rebuilt {
    link: u32,
    entry: u64,
    end: usize,
}

// Appends the nodes of the tree of some symbols, from `low` on and before `end`, whose bits begin at bit `start`.
// Errors: `NotAList` if there are no elements that are these symbols with bits that begin there, before the last bit.
fn rebuild<A: Allocator + Copy>(
    starts: &[u64],
    low: usize,
    end: usize,
    bits: &WordRank<A>,
    start: usize,
    nodes: &mut Vec<Node, A>,
) -> Result<Rebuilt, PartsError> {
    let split = split_of(starts, low, end);
    if starts[split] == starts[end] {
        return Ok(Rebuilt {
            link: LEAVES + (split - 1) as u32,
            entry: starts[split - 1],
            end: start,
        });
    }
    let elements = (starts[end] - starts[low]) as usize;
    let high = (starts[end] - starts[split]) as usize;
    let own_end = match fork_end(bits, start, elements, high) { Some(own_end) => own_end, _ => {
        return Err(PartsError::NotAList);
    } };
    let left = rebuild(starts, low, split, bits, own_end, nodes)?;
    let right = rebuild(starts, split, end, bits, left.end, nodes)?;
    let ones = bits.rank1(start);
    let node = Node {
        low: left.entry.wrapping_sub((start - ones) as u64),
        high: right.entry.wrapping_sub(ones as u64),
        low_link: left.link,
        high_link: right.link,
        split: split as u32,
    };
    Ok(Rebuilt {
        link: add_node(nodes, node)?,
        entry: start as u64,
        end: right.end,
    })
}

// Returns where the bits of a fork end that begin at `start`, one for each element. `None` if they don't end before the
// last bit, or there aren't as many ones as elements on the right.
fn fork_end<A: Allocator + Copy>(
    bits: &WordRank<A>,
    start: usize,
    elements: usize,
    high: usize,
) -> Option<usize> {
    if elements >= bits.len() - start {
        return None;
    }
    let end = start + elements;
    let ones = bits.rank1(end) - bits.rank1(start);
    if ones != high {
        return None;
    }
    Some(end)
}
