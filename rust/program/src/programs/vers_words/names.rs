//! Tables of names.

use crate::rattle::prelude::*;

// Returns the entry of a table with that name.
fn entry_of<'a, N>(table: &'a [(&'static [u8], N)], word: &[u8]) -> Option<&'a (&'static [u8], N)> {
    table.iter().find(|entry| entry.0 == word)
}

/// Returns what a word names in a table of names and their meanings. `None` if it names nothing; the first of
/// two equal names counts.
pub fn named<N: Copy>(table: &[(&'static [u8], N)], word: &[u8]) -> Option<N> {
    let (_, name) = entry_of(table, word)?;
    Some(*name)
}
