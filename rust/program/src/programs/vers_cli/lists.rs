//! The replies that are lists.

use crate::rattle::prelude::*;

use crate::programs::vers_cli::documents::admitted;
use crate::programs::vers_cli::name::{Listing, Nodes};
use crate::programs::catalogue::documents::{Joint, documents_of, joined_documents};
use crate::programs::catalogue::structure::Structure;
use crate::proved::postings::Postings;
use crate::rattle::AllocError;
use crate::rattle::Allocator;
use crate::proved::vers_tally::ends::{BothEnds, Source};
use crate::proved::vers_trees::trees::bp::BpTree;
use crate::proved::vers_wavelet::wavelet::WaveletMatrix;
use crate::programs::vers_words::reply::Reply;

/// Returns the reply with all items of a structure, or all nodes. Errors: `AllocError` if the allocator refuses a
/// request.
pub fn all_reply<A: Allocator + Copy>(
    alloc: A,
    structure: &Structure<'_, A>,
    listing: Listing,
) -> Result<Reply<A>, AllocError> {
    match structure {
        Structure::Sorted(elements) => match listing {
            Listing::Items => numbers_reply(alloc, elements.iter()),
            Listing::BySize | Listing::Postorder => Ok(Reply::WrongStructure),
        },
        Structure::Sparse(bits) => match listing {
            Listing::Items => numbers_reply(alloc, bits.iter1()),
            Listing::BySize | Listing::Postorder => Ok(Reply::WrongStructure),
        },
        Structure::Symbols(symbols) => symbols_reply(alloc, symbols, listing),
        Structure::Tree(tree) => nodes_reply(alloc, tree, listing),
        _ => Ok(Reply::WrongStructure),
    }
}

// Returns the reply with the numbers that an iterator has left.
fn numbers_reply<A: Allocator + Copy, S: Source<Item = u64>>(
    alloc: A,
    numbers_left: BothEnds<S>,
) -> Result<Reply<A>, AllocError> {
    // `collect` would continue if the memory for all at once is refused.
    let mut numbers = Vec::with_capacity(alloc, numbers_left.len())?;
    numbers.extend(numbers_left)?;
    Ok(Reply::Numbers(numbers))
}

// Returns the reply with all symbols.
fn symbols_reply<A: Allocator + Copy>(
    alloc: A,
    symbols: &WaveletMatrix<A>,
    listing: Listing,
) -> Result<Reply<A>, AllocError> {
    match listing {
        Listing::Items => match symbols.iter_u64() {
            None => Ok(Reply::Absent),
            Some(items) => numbers_reply(alloc, items),
        },
        Listing::BySize => match symbols.iter_sorted_u64() {
            None => Ok(Reply::Absent),
            Some(items) => numbers_reply(alloc, items),
        },
        Listing::Postorder => Ok(Reply::WrongStructure),
    }
}

// Returns the numbers that an iterator over positions has left.
fn positions_left<A: Allocator + Copy, I: Iterator<Item = usize>>(
    alloc: A,
    positions: I,
) -> Result<Vec<u64, A>, AllocError> {
    let mut numbers = Vec::new(alloc);
    for position in positions {
        numbers.push(position as u64)?;
    }
    Ok(numbers)
}

// Returns the reply with all nodes.
fn nodes_reply<A: Allocator + Copy>(
    alloc: A,
    tree: &BpTree<512, &A>,
    listing: Listing,
) -> Result<Reply<A>, AllocError> {
    match listing {
        Listing::Items => Ok(Reply::Numbers(preorder(alloc, tree)?)),
        Listing::Postorder => postorder_reply(alloc, tree),
        Listing::BySize => Ok(Reply::WrongStructure),
    }
}

// Returns the positions of the ones.
fn preorder<A: Allocator + Copy>(
    alloc: A,
    tree: &BpTree<512, &A>,
) -> Result<Vec<u64, A>, AllocError> {
    positions_left(alloc, tree.dfs_iter())
}

// Returns the reply with all nodes in postorder.
fn postorder_reply<A: Allocator + Copy>(
    alloc: A,
    tree: &BpTree<512, &A>,
) -> Result<Reply<A>, AllocError> {
    if !tree.is_balanced() {
        return Ok(Reply::Refused);
    }
    Ok(Reply::Numbers(positions_left(alloc, tree.dfs_post_iter())?))
}

/// Returns the reply with the nodes that a walk from a node passes. Errors: `AllocError` if the allocator refuses a
/// request.
pub fn walk_reply<A: Allocator + Copy>(
    alloc: A,
    structure: &Structure<'_, A>,
    nodes: Nodes,
    node: usize,
) -> Result<Reply<A>, AllocError> {
    match structure {
        Structure::Tree(tree) if tree.has_node(node) => {
            Ok(Reply::Numbers(walk(alloc, tree, nodes, node)?))
        }
        Structure::Tree(_) => Ok(Reply::Refused),
        _ => Ok(Reply::WrongStructure),
    }
}

// Returns the nodes that a walk from a node passes.
fn walk<A: Allocator + Copy>(
    alloc: A,
    tree: &BpTree<512, &A>,
    nodes: Nodes,
    node: usize,
) -> Result<Vec<u64, A>, AllocError> {
    match nodes {
        Nodes::Children => positions_left(alloc, tree.children(node)),
        Nodes::RevChildren => positions_left(alloc, tree.rev_children(node)),
        Nodes::Subtree => positions_left(alloc, tree.subtree_iter(node)),
        Nodes::SubtreePost => positions_left(alloc, tree.subtree_post_iter(node)),
    }
}

/// Returns the reply with the documents that are also among others, which are refused if they don't ascend strictly
/// or are too many. Errors: `AllocError` if the allocator refuses a request.
pub fn common_reply<A: Allocator + Copy>(
    alloc: A,
    structure: &Structure<'_, A>,
    documents: &[u64],
) -> Result<Reply<A>, AllocError> {
    match structure {
        Structure::Postings(postings) => shared_reply(alloc, postings, documents),
        _ => Ok(Reply::WrongStructure),
    }
}

// Returns the reply with the documents that are also among others.
fn shared_reply<A: Allocator + Copy>(
    alloc: A,
    postings: &Postings<A>,
    documents: &[u64],
) -> Result<Reply<A>, AllocError> {
    // The costs are not used.
    let costs = Vec::from_elem(alloc, 0u64, documents.len())?;
    among(postings, admitted(documents, costs))
}

// Returns the reply with the documents that are also among others, if these are admitted. Their type is
// generic, so that the proof doesn't go through their fields.
fn among<A: Allocator + Copy, O: Others<A>>(
    postings: &Postings<A>,
    others: Result<Option<O>, AllocError>,
) -> Result<Reply<A>, AllocError> {
    match others {
        Ok(None) => Ok(Reply::Refused),
        Ok(Some(others)) => others.common_reply(postings),
        Err(error) => Err(error),
    }
}

// Other documents.
trait Others<A: Allocator + Copy> {
    // Returns the reply with the documents that are in both lists.
    fn common_reply(&self, postings: &Postings<A>) -> Result<Reply<A>, AllocError>;
}

impl<A: Allocator + Copy> Others<A> for Postings<A> {
    fn common_reply(&self, postings: &Postings<A>) -> Result<Reply<A>, AllocError> {
        Ok(Reply::Numbers(postings.intersect(self)?))
    }
}

/// Returns the reply with the documents of a term. Errors: `AllocError` if the allocator refuses a request.
pub fn documents_reply<A: Allocator + Copy>(
    alloc: A,
    structure: &Structure<'_, A>,
    term: u64,
) -> Result<Reply<A>, AllocError> {
    match structure {
        Structure::Inverted(index) => Ok(Reply::Numbers(documents_of(alloc, index, term)?)),
        _ => Ok(Reply::WrongStructure),
    }
}

/// Returns the reply with documents of two terms. Errors: `AllocError` if the allocator refuses a request.
pub fn joined_reply<A: Allocator + Copy>(
    alloc: A,
    structure: &Structure<'_, A>,
    joint: Joint,
    one: u64,
    other: u64,
) -> Result<Reply<A>, AllocError> {
    match structure {
        Structure::Inverted(index) => {
            Ok(Reply::Numbers(joined_documents(alloc, index, joint, one, &[other])?))
        }
        _ => Ok(Reply::WrongStructure),
    }
}
