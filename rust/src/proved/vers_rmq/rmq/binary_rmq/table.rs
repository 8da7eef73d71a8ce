//! The table of the positions of least items, by powers of two.

use crate::rattle::prelude::*;

use crate::proved::vers_rmq::rmq::least::lesser_position;
use crate::rattle::AllocError;
use crate::rattle::Allocator;

// Returns the exponent of the greatest power of two that is at most `a`.
#[inline(always)]
pub(super) fn log2(a: usize) -> usize {
    63 - a.leading_zeros() as usize
}

// Returns two to the power of `k`.
#[inline(always)]
pub(super) fn width(k: usize) -> usize {
    1 << k
}

// Returns the number of levels in the table of `n` items: one for each power of two up to the first that is at
// least `n`.
fn level_count(n: usize) -> usize {
    if n < 2 { 1 } else { log2(n - 1) + 2 }
}

// Returns the entry of level `k + 1` for the range from `i` on, from two entries of level `k`.
fn next_position(items: &[u64], table: &[u32], k: usize, i: usize) -> u32 {
    let m = table[items.len() * k + i];
    let h = i + width(k);
    if h < items.len() {
        return lesser_position(items, m as usize, table[items.len() * k + h] as usize) as u32;
    }
    m
}

// Returns the table: a level for each power of two up to the first that is at least the number of items, and on
// it an entry for each item. Allocates once.
pub(super) fn positions<A: Allocator + Copy>(
    items: &[u64],
    alloc: A,
) -> Result<Vec<u32, A>, AllocError> {
    let mut table = Vec::with_capacity(alloc, items.len() * level_count(items.len()))?;
    for i in 0..items.len() {
        table.push(i as u32)?;
    }
    let mut k = 0;
    'levels: while width(k) < items.len() {
        for j in 0..items.len() {
            let position = next_position(items, table.as_slice(), k, j);
            table.push(position)?;
        }
        k += 1;
    }
    Ok(table)
}
