//! Counts of many patterns, which are joined in one array of symbols.

use crate::rattle::prelude::*;

use crate::programs::vers_c::kept::Kept;
use crate::programs::vers_c::status::{DONE, REFUSED, UNKNOWN};
use crate::programs::catalogue::structure::Structure;
use crate::rattle::Global;
use crate::proved::text_index::TextIndex;

/// The number of patterns that are counted together.
const GROUP: usize = 64;

/// Replaces the end of each joined pattern by the number of its occurrences in a text. Returns a status.
pub fn count_each(kept: &Kept, symbols: &[u64], ends: &mut [u64]) -> u32 {
    match kept {
        Kept::Other(Structure::Text(text)) => {
            if !are_ends(symbols.len(), ends) {
                return REFUSED;
            }
            count_groups(text, symbols, ends);
            DONE
        }
        _ => UNKNOWN,
    }
}

// Returns true if each pattern ends not before it begins, and within a number of symbols. The first one begins at 0.
fn are_ends(len: usize, ends: &[u64]) -> bool {
    let mut start = 0;
    for k in 0..ends.len() {
        let end = ends[k];
        if end < start || end > len as u64 {
            return false;
        }
        start = end;
    }
    true
}

// Replaces the ends of patterns by the numbers of their occurrences.
fn count_groups(text: &TextIndex<Global>, symbols: &[u64], ends: &mut [u64]) {
    let (mut first, mut start) = (0, 0);
    while first < ends.len() {
        let count = GROUP.min(ends.len() - first);
        let group = &mut ends[first..first + count];
        let end = group[count - 1] as usize;
        count_group(text, symbols, start, group);
        start = end;
        first += count;
    }
}

// Does the same for one group, whose first pattern begins at `start`.
fn count_group(text: &TextIndex<Global>, symbols: &[u64], start: usize, ends: &mut [u64]) {
    let mut patterns: [&[u64]; GROUP] = [&[]; GROUP];
    let mut counts = [0; GROUP];
    let count = ends.len();
    collect(symbols, start, ends, &mut patterns);
    text.count_each(&patterns[..count], &mut counts);
    copy(&counts, ends)
}

// Collects joined patterns.
fn collect<'a>(symbols: &'a [u64], start: usize, ends: &[u64], patterns: &mut [&'a [u64]]) {
    let mut from = start;
    for k in 0..ends.len() {
        let end = ends[k] as usize;
        patterns[k] = &symbols[from..end];
        from = end;
    }
}

// Copies counts over as many numbers.
fn copy(counts: &[usize], numbers: &mut [u64]) {
    for k in 0..numbers.len() {
        numbers[k] = counts[k] as u64;
    }
}
