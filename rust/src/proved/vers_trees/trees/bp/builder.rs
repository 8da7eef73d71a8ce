//! Trees from a walk through their nodes.

use crate::rattle::prelude::*;

use super::scan::step;
use super::{BpTree, MAX_BLOCK_SIZE, MAX_LEN};
use crate::proved::vers_trees::trees::TreeBuilder;
use crate::rattle::AllocError;
use crate::rattle::Allocator;
use crate::proved::vers_bits::bit_vec::{BitVec, GrowError};

/// Why a tree was not built.
#[derive(Clone, Copy, PartialEq, Eq, Debug)]
pub enum BuildError {
    /// The number of nodes entered minus the number of nodes left, if these differ.
    Excess(i64),
    /// The allocator refused a request.
    Memory,
}

impl From<AllocError> for BuildError {
    fn from(_: AllocError) -> BuildError {
        BuildError::Memory
    }
}

/// A list of parentheses that grows while the nodes of a forest are entered and left. Contracts see a
/// `BpBuilder` as that list.
pub struct BpBuilder<const BLOCK_SIZE: usize, A: Allocator + Copy> {
    bits: BitVec<A>,
    excess: i64,
}

impl<const BLOCK_SIZE: usize, A: Allocator + Copy> BpBuilder<BLOCK_SIZE, A> {
    /// Returns an empty list of parentheses. Allocates nothing.
    ///
    /// Precondition: `BLOCK_SIZE` is from 1 to `MAX_BLOCK_SIZE`.
    pub fn new(alloc: A) -> Self {
        BpBuilder {
            bits: BitVec::new(alloc),
            excess: 0,
        }
    }

    /// Returns an empty list of parentheses, with room for those of `nodes` nodes.
    ///
    /// Precondition: `BLOCK_SIZE` is from 1 to `MAX_BLOCK_SIZE`.
    ///
    /// # Errors
    ///
    /// `TooLong` if twice the number is above the greatest number of bits of a tree; `Memory` if the allocator
    /// refuses a request.
    pub fn with_capacity(alloc: A, nodes: u64) -> Result<Self, GrowError> {
        if nodes > MAX_LEN as u64 / 2 {
            return Err(GrowError::TooLong);
        }
        let bits = BitVec::with_capacity(alloc, 2 * nodes as usize)?;
        Ok(BpBuilder { bits, excess: 0 })
    }

    // Appends a parenthesis.
    fn append(&mut self, opens: bool) -> Result<(), GrowError> {
        if self.bits.len() == MAX_LEN {
            return Err(GrowError::TooLong);
        }
        self.bits.append(opens)?;
        self.excess += step(opens);
        Ok(())
    }

    /// Enters a node: appends a one.
    ///
    /// # Errors
    ///
    /// `TooLong` if the list has the greatest number of bits of a tree; `Memory` if the allocator refuses a
    /// request.
    pub fn enter_node(&mut self) -> Result<(), GrowError> {
        self.append(true)
    }

    /// Leaves a node: appends a zero.
    ///
    /// # Errors
    ///
    /// `TooLong` if the list has the greatest number of bits of a tree; `Memory` if the allocator refuses a
    /// request.
    pub fn leave_node(&mut self) -> Result<(), GrowError> {
        self.append(false)
    }

    /// Returns the tree of the list if it has as many ones as zeros, balanced or not. The list is dropped on
    /// error.
    ///
    /// # Errors
    ///
    /// `Excess` with the excess of the list if it isn't 0, which is tested before any allocation; `Memory` if
    /// the allocator refuses a request.
    pub fn build(self) -> Result<BpTree<BLOCK_SIZE, A>, BuildError> {
        if self.excess != 0 {
            return Err(BuildError::Excess(self.excess));
        }
        let BpBuilder { bits, excess: _ } = self;
        Ok(BpTree::indexed(bits)?)
    }
}

impl<const BLOCK_SIZE: usize, A: Allocator + Copy> TreeBuilder for BpBuilder<BLOCK_SIZE, A> {
    type Tree = BpTree<BLOCK_SIZE, A>;

    fn enter_node(&mut self) -> Result<(), GrowError> {
        self.enter_node()
    }

    fn leave_node(&mut self) -> Result<(), GrowError> {
        self.leave_node()
    }

    fn build(self) -> Result<BpTree<BLOCK_SIZE, A>, BuildError> {
        self.build()
    }
}
