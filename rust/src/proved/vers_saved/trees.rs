//! Lists of parentheses, saved by their limbs.

use crate::rattle::prelude::*;

use crate::proved::vers_saved::VERSION;
use crate::proved::vers_saved::bits::limb_of;
use crate::proved::vers_saved::fault::LoadError;
use crate::proved::vers_saved::form::{Form, Shape, bits_of, form_of, taken};
use crate::proved::vers_saved::gather::form_from;
use crate::proved::vers_saved::kind::{Kind, Order, PARENTHESES};
use crate::proved::vers_saved::saved::{Loaded, Saved};
use crate::rattle::AllocError;
use crate::rattle::Allocator;
use crate::proved::vers_bits::bit_vec::BitVec;
use crate::rattle::io::Source;
use crate::proved::vers_trees::trees::bp::{BpTree, MAX_BLOCK_SIZE, MAX_LEN};

/// Returns the kind of the parentheses of trees with blocks of `size` bits.
pub fn tree_kind(size: usize) -> Kind {
    Kind {
        number: PARENTHESES,
        version: VERSION,
        least_width: size.max(1) as u64,
        greatest_width: size.min(MAX_BLOCK_SIZE) as u64,
        item_bits: 1,
        by_levels: false,
        least_count: 0,
        greatest_count: MAX_LEN as u64,
        order: Order::Any,
    }
}

impl<const BLOCK_SIZE: usize, A: Allocator + Copy> Saved for BpTree<BLOCK_SIZE, A> {
    type Prepared = ();

    fn kind() -> Kind {
        tree_kind(BLOCK_SIZE)
    }

    fn shape(&self) -> Option<Shape> {
        if BLOCK_SIZE == 0 || BLOCK_SIZE > MAX_BLOCK_SIZE {
            return None;
        }
        Some(Shape {
            count: self.len(),
            width: BLOCK_SIZE,
        })
    }

    #[inline]
    fn word(&self, k: usize) -> u64 {
        limb_of(self.bits(), k)
    }

    fn prepare(&self) {}
}

// Returns the parentheses in words, of a tree with blocks of `size` bits.
fn parentheses_of<A: Allocator + Copy>(size: usize, of: Shape, words: Vec<u64, A>) -> BitVec<A> {
    bits_of(&tree_kind(size), of, words)
}

// Returns the tree of the parentheses in words, which are taken out of the vector.
fn tree_of<'a, const BLOCK_SIZE: usize, A: Allocator>(
    of: Shape,
    held: &mut Vec<u64, &'a A>,
) -> Result<BpTree<BLOCK_SIZE, &'a A>, AllocError> {
    match BpTree::from_bit_vector(parentheses_of(BLOCK_SIZE, of, taken(held))) {
        Ok(tree) => Ok(tree),
        Err(_) => Err(AllocError),
    }
}

// The size of a tree with any allocator isn't known, but that of one with a reference to it is.
impl<'a, const BLOCK_SIZE: usize, A: Allocator> Loaded<&'a A> for BpTree<BLOCK_SIZE, &'a A> {
    fn make(of: Shape, held: &mut Vec<u64, &'a A>) -> Result<Self, AllocError> {
        tree_of(of, held)
    }

    fn make_packed(_of: Shape, _held: &mut Vec<u64, &'a A>) -> Result<Self, AllocError> {
        Err(AllocError)
    }
}

/// Loads parentheses from the saved form of a tree with blocks of `size` bits.
///
/// # Errors
///
/// That of the first test that fails; `Memory` only if the bytes pass all tests.
pub fn load_parentheses_from_slice<A: Allocator + Copy>(
    alloc: A,
    size: usize,
    bytes: &[u8],
) -> Result<BitVec<A>, LoadError> {
    let Form { shape, words, .. } = form_of(alloc, tree_kind(size), bytes)?;
    Ok(parentheses_of(size, shape, words))
}

/// Loads a tree from its saved form.
///
/// # Errors
///
/// That of the first test that fails; `Memory` only if the bytes pass all tests.
pub fn load_tree_from_slice<'a, const BLOCK_SIZE: usize, A: Allocator>(
    alloc: &'a A,
    bytes: &[u8],
) -> Result<BpTree<BLOCK_SIZE, &'a A>, LoadError> {
    let bits = load_parentheses_from_slice(alloc, BLOCK_SIZE, bytes)?;
    match BpTree::from_bit_vector(bits) {
        Ok(tree) => Ok(tree),
        Err(_) => Err(LoadError::Memory),
    }
}

/// Loads a tree from its saved form, the rest of a reader. Errors as for `load`.
pub fn load_tree<'a, const BLOCK_SIZE: usize, A: Allocator, R: Source>(
    alloc: &'a A,
    reader: &mut R,
) -> Result<BpTree<BLOCK_SIZE, &'a A>, LoadError> {
    let Form {
        shape,
        mut words,
        ..
    } = form_from(alloc, tree_kind(BLOCK_SIZE), reader)?;
    Ok(tree_of(shape, &mut words)?)
}
