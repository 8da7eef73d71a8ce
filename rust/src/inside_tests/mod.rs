//! Tests of the proved sources that need more than their crates of tests have: entries that are read, and other sizes.

mod batches;
mod bodies;
#[cfg(mutants)]
mod exports;
#[cfg(mutants)]
mod greatest;
mod memory;
mod older;
mod reads;
#[cfg(mutants)]
mod suffixes;

/// Numbers of a xorshift generator.
fn xorshift(count: usize, seed: u64) -> std::vec::Vec<u64> {
    let mut state = seed;
    (0..count)
        .map(|_| {
            state ^= state << 13;
            state ^= state >> 7;
            state ^= state << 17;
            state
        })
        .collect()
}
