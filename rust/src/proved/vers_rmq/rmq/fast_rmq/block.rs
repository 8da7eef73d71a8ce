//! The data of blocks of 128 items.

use crate::rattle::prelude::*;

use crate::proved::vers_rmq::rmq::fast_rmq::mask::{Masks, prefix_masks, suffix_masks};
use crate::proved::vers_rmq::rmq::fast_rmq::{BLOCK, MAX_LEN, PART};
use crate::rattle::AllocError;
use crate::rattle::Allocator;

// The masks of a block, which take 64 bytes: those of the whole block, and those of its parts of 16 items.
#[derive(Clone, Copy)]
pub(super) struct BlockMasks {
    pub(super) whole: Masks,
    pub(super) parts: Masks,
}

// For each block the least item, the distance of its first position to the block's start, and the masks.
pub(super) struct Blocks<A: Allocator + Copy> {
    pub(super) minima: Vec<u64, A>,
    pub(super) positions: Vec<u8, A>,
    pub(super) masks: Vec<BlockMasks, A>,
}

// Returns the masks of the block from `start` to before `end`, and the first position of its least item.
fn block_masks(items: &[u64], start: usize, end: usize) -> (BlockMasks, usize) {
    let (prefixes, part_prefixes, least) = prefix_masks(items, start, end);
    let (suffixes, part_suffixes) = suffix_masks(items, start, end);
    let masks = BlockMasks {
        whole: Masks { prefixes, suffixes },
        parts: Masks {
            prefixes: part_prefixes,
            suffixes: part_suffixes,
        },
    };
    (masks, least)
}

// Appends the data of block `b`.
fn add_block<A: Allocator + Copy>(
    items: &[u64],
    blocks: &mut Blocks<A>,
    b: usize,
) -> Result<(), AllocError> {
    let start = BLOCK * b;
    let end = items.len().min(start + BLOCK);
    let (masks, least) = block_masks(items, start, end);
    blocks.minima.push(items[least])?;
    blocks.positions.push((least - start) as u8)?;
    blocks.masks.push(masks)?;
    Ok(())
}

// Returns the data of all blocks. Allocates each vector once.
pub(super) fn all_blocks<A: Allocator + Copy>(
    items: &[u64],
    alloc: A,
) -> Result<Blocks<A>, AllocError> {
    let count = items.len().div_ceil(BLOCK);
    let mut blocks = Blocks {
        minima: Vec::with_capacity(alloc, count)?,
        positions: Vec::with_capacity(alloc, count)?,
        masks: Vec::with_capacity(alloc, count)?,
    };
    for b in 0..count {
        add_block(items, &mut blocks, b)?;
    }
    Ok(blocks)
}
