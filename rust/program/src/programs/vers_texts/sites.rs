//! Occurrences in the sequences of a FASTA text, by the name of the sequence and the offset in it.

use crate::rattle::prelude::*;

use crate::rattle::AllocError;
use crate::rattle::Allocator;
use crate::proved::text_index::TextIndex;
use crate::programs::vers_words::reply::{Reply, append_number};

// The line feed, which precedes and follows each name.
const FEED: u64 = 10;

/// Returns the reply with the sites of a pattern, in the order of the text: for each occurrence the name of its
/// sequence and the offset there. The reply is `refused` unless the pattern has only residues, and at least one, the
/// text has the line feeds of a FASTA text, and each occurrence is in a sequence with a name.
pub fn sites_reply<A: Allocator + Copy>(
    alloc: A,
    text: &TextIndex<A>,
    pattern: &[u64],
) -> Result<Reply<A>, AllocError> {
    if pattern.is_empty() || !are_residues(pattern) {
        return Ok(Reply::Refused);
    }
    let feeds = text.places_ascending(&[FEED])?;
    if !has_pairs_of_feeds(text.is_empty(), feeds.as_slice()) {
        return Ok(Reply::Refused);
    }
    let positions = text.places_ascending(pattern)?;
    let mut line = Vec::new(alloc);
    if !append_sites(text, feeds.as_slice(), positions.as_slice(), &mut line)? {
        return Ok(Reply::Refused);
    }
    Ok(Reply::Text(line))
}

// Returns true if symbols are residues.
fn are_residues(symbols: &[u64]) -> bool {
    symbols.iter().all(|symbol| {
        (*symbol >= 65 && *symbol <= 90)
            || (*symbol >= 97 && *symbol <= 122)
            || *symbol == 42
            || *symbol == 45
    })
}

// Returns the number of line feeds before a position.
fn feeds_before(feeds: &[usize], position: usize) -> usize {
    feeds.partition_point(|feed| *feed < position)
}

// Returns true if line feeds are those of a FASTA text: two for each sequence, the first at the text's start unless
// the text is empty.
fn has_pairs_of_feeds(is_empty: bool, feeds: &[usize]) -> bool {
    feeds.len() % 2 == 0 && (is_empty || !feeds.is_empty() && feeds[0] == 0)
}

// Appends the sites of positions, with spaces between them, up to the first position in no sequence. Returns true if
// all are in sequences.
fn append_sites<A: Allocator + Copy>(
    text: &TextIndex<A>,
    feeds: &[usize],
    positions: &[usize],
    line: &mut Vec<u8, A>,
) -> Result<bool, AllocError> {
    let Some((first, others)) = positions.split_first() else {
        return Ok(true);
    };
    if !append_site(text, feeds, *first, line)? {
        return Ok(false);
    }
    for position in others {
        line.push(b' ')?;
        if !append_site(text, feeds, *position, line)? {
            return Ok(false);
        }
    }
    Ok(true)
}

// Appends the site of a position: the name of its sequence, a space, and the offset. Returns false, and appends
// nothing, if the position is in no sequence.
fn append_site<A: Allocator + Copy>(
    text: &TextIndex<A>,
    feeds: &[usize],
    position: usize,
    line: &mut Vec<u8, A>,
) -> Result<bool, AllocError> {
    let number = feeds_before(feeds, position);
    if number < 2 || number % 2 != 0 {
        return Ok(false);
    }
    let to = feeds[number - 1];
    let Some(name) = name_between(text, feeds[number - 2], to)? else {
        return Ok(false);
    };
    append_low_bits(name.as_slice(), line)?;
    line.push(b' ')?;
    append_number(position.saturating_sub(to).saturating_sub(1) as u64, line)?;
    Ok(true)
}

// Returns the symbols between two line feeds, or `None` if they are no name.
fn name_between<A: Allocator + Copy>(
    text: &TextIndex<A>,
    from: usize,
    to: usize,
) -> Result<Option<Vec<u64, A>>, AllocError> {
    // A position of a text is below the greatest number.
    let _ = text.len();
    let Some(symbols) = text.extract(from + 1..to)? else {
        return Ok(None);
    };
    if !is_marked_name(symbols.as_slice()) {
        return Ok(None);
    }
    Ok(Some(symbols))
}

// Returns true if symbols are a name: one or more bytes, each with its highest bit set.
fn is_marked_name(symbols: &[u64]) -> bool {
    !symbols.is_empty() && are_marked(symbols)
}

fn are_marked(symbols: &[u64]) -> bool {
    symbols
        .iter()
        .all(|symbol| *symbol >= 128 && *symbol <= 255)
}

// Appends symbols as bytes, each without its highest bit.
fn append_low_bits<A: Allocator>(symbols: &[u64], line: &mut Vec<u8, A>) -> Result<(), AllocError> {
    for symbol in symbols {
        line.push((*symbol % 128) as u8)?;
    }
    Ok(())
}
