//! Structures made of plain lists.

use crate::rattle::prelude::*;

use crate::programs::vers_c::kept::Kept;
use crate::programs::catalogue::structure::Structure;
use crate::proved::inverted::{InvertedError, InvertedIndex, Pairs};
use crate::proved::postings::Postings;
use crate::rattle::AllocError;
use crate::rattle::Global;
use crate::proved::vers_bits::bit_vec::{BitVec, GrowError};
use crate::proved::vers_rank::fast_rs_vec::RsVec;
use crate::proved::vers_rmq::rmq::binary_rmq::BinaryRmq;
use crate::proved::vers_rmq::rmq::fast_rmq::FastRmq;
use crate::proved::vers_rmq::rmq::{binary_rmq, fast_rmq};
use crate::proved::vers_sorted::order::is_strictly_ascending;
use crate::proved::vers_sorted::sparse::SparseRSVec;
use crate::proved::vers_trees::trees::bp::BpTree;

/// A list of parentheses with its index.
pub type Parentheses = BpTree<512, Global>;

/// Returns the first `len` bits of words, or all if there are fewer.
///
/// # Errors
///
/// `TooLong` if the words exceed `MAX_LEN` bits; `Memory` if the allocator refuses a request.
pub fn growing(alloc: Global, words: &[u64], len: usize) -> Result<BitVec<Global>, GrowError> {
    let mut bits = BitVec::from_limbs(alloc, words)?;
    bits.drop_last(bits.len().saturating_sub(len));
    Ok(bits)
}

/// Returns the first `len` bits of words, or all if there are fewer, with rank and select.
///
/// # Errors
///
/// `TooLong` if the words exceed `MAX_LEN` bits; `Memory` if the allocator refuses a request.
pub fn bits(alloc: Global, words: &[u64], len: usize) -> Result<RsVec<Global>, GrowError> {
    Ok(RsVec::from_bit_vec(growing(alloc, words, len)?)?)
}

/// Returns the list of `len` bits with ones at the given positions. Precondition: these ascend strictly and are
/// below `len`. Errors: `AllocError` if the allocator refuses a request.
pub fn sparse(alloc: Global, ones: &[u64], len: u64) -> Result<SparseRSVec<Global>, AllocError> {
    SparseRSVec::new(alloc, ones, len)
}

/// Returns the values as a `FastRmq`.
///
/// # Errors
///
/// `TooLong` if there are too many; `Memory` if the allocator refuses a request.
pub fn fast(alloc: Global, values: &[u64]) -> Result<FastRmq<Global>, GrowError> {
    if values.len() > fast_rmq::MAX_LEN {
        return Err(GrowError::TooLong);
    }
    Ok(FastRmq::from_vec(Vec::from_slice(alloc, values)?)?)
}

/// Returns the values as a `BinaryRmq`.
///
/// # Errors
///
/// `TooLong` if there are too many; `Memory` if the allocator refuses a request.
pub fn binary(alloc: Global, values: &[u64]) -> Result<BinaryRmq<Global>, GrowError> {
    if values.len() > binary_rmq::MAX_LEN {
        return Err(GrowError::TooLong);
    }
    Ok(BinaryRmq::from_vec(Vec::from_slice(alloc, values)?)?)
}

/// Returns the first `len` bits of words, or all if there are fewer, as parentheses.
///
/// # Errors
///
/// `TooLong` if there are too many bits; `Memory` if the allocator refuses a request.
pub fn tree(alloc: Global, words: &[u64], len: usize) -> Result<Box<Parentheses, Global>, GrowError> {
    boxed(alloc, growing(alloc, words, len)?)
}

/// Returns the tree of a list of bits.
///
/// # Errors
///
/// `TooLong` if there are too many; `Memory` if the allocator refuses a request.
pub fn boxed(alloc: Global, bits: BitVec<Global>) -> Result<Box<Parentheses, Global>, GrowError> {
    match BpTree::from_bit_vector(bits) {
        Ok(tree) => in_box(alloc, tree),
        Err(error) => Err(error),
    }
}

// Returns a tree in a box.
fn in_box(alloc: Global, tree: Parentheses) -> Result<Box<Parentheses, Global>, GrowError> {
    match Box::new(alloc, tree) {
        Ok(made) => Ok(made),
        Err(_) => Err(GrowError::Memory),
    }
}

/// Returns the documents with their costs. `None` if they don't ascend strictly, or the number of costs
/// differs. Errors: `AllocError` if the allocator refuses a request.
pub fn posted(alloc: Global, documents: &[u64], costs: &[u64]) -> Result<Option<Kept>, AllocError> {
    if documents.len() != costs.len() || !is_strictly_ascending(documents) {
        return Ok(None);
    }
    // Neither is refused any more, so an error is of memory, or of more documents than it has room for.
    match Postings::from_sorted(documents, Vec::from_slice(alloc, costs)?) {
        Ok(made) => Ok(Some(Kept::Other(Structure::Postings(made)))),
        Err(_) => Err(AllocError),
    }
}

// Pairs of a term and a document, in a slice each.
#[derive(Clone, Copy)]
struct Columns<'a> {
    terms: &'a [u64],
    documents: &'a [u64],
}

impl Pairs for Columns<'_> {
    #[inline]
    fn next(&mut self) -> Option<(u64, u64)> {
        let (term, terms) = self.terms.split_first()?;
        let (document, documents) = self.documents.split_first()?;
        self.terms = terms;
        self.documents = documents;
        Some((*term, *document))
    }
}

/// Returns the index of pairs, whose terms and documents are slices. `None` if these have different lengths, or the
/// pairs have no index below `limit` terms and `universe` documents. Errors: `AllocError` if the allocator refuses a
/// request.
pub fn inverted(
    alloc: Global,
    limit: u64,
    universe: u64,
    terms: &[u64],
    documents: &[u64],
) -> Result<Option<Kept>, AllocError> {
    if terms.len() != documents.len() {
        return Ok(None);
    }
    match InvertedIndex::from_source(alloc, limit, universe, Columns { terms, documents }) {
        Ok(made) => Ok(Some(Kept::Other(Structure::Inverted(made)))),
        Err(InvertedError::Memory) => Err(AllocError),
        Err(_) => Ok(None),
    }
}
