//! The names of lines.

use crate::rattle::prelude::*;

use crate::programs::vers_words::names::named;

/// The first word of a query line.
#[derive(Clone, Copy)]
pub enum Query {
    Len,
    Count,
    Positions,
    First,
    Extract,
    Piece,
    Sites,
}

/// The first word of a line.
#[derive(Clone, Copy)]
pub enum Name {
    Text,
    Query(Query),
}

/// All names, with their text. It is the only table of names: the contract of `Name::of` reads it too.
pub const NAMES: [(&[u8], Name); 8] = [
    (b"text", Name::Text),
    (b"len", Name::Query(Query::Len)),
    (b"count", Name::Query(Query::Count)),
    (b"places", Name::Query(Query::Positions)),
    (b"first", Name::Query(Query::First)),
    (b"extract", Name::Query(Query::Extract)),
    (b"piece", Name::Query(Query::Piece)),
    (b"sites", Name::Query(Query::Sites)),
];

impl Name {
    /// Returns the name that a word is, or `None` if it is none.
    pub fn of(word: &[u8]) -> Option<Name> {
        named(&NAMES, word)
    }
}
