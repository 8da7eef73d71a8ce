//! Load lines.

use crate::rattle::prelude::*;

use crate::programs::vers_cli::name::Load;
use crate::programs::vers_cli::{bits, documents, index, sorted, sparse, symbols, tree, values};
use crate::programs::catalogue::structure::Structure;
use crate::rattle::AllocError;
use crate::rattle::Allocator;
use crate::programs::vers_words::loading::Loading;

/// Returns true if a load line is accepted. Allocates nothing.
pub fn is_accepted(load: Load, arguments: &[u8]) -> bool {
    match load {
        Load::Bits => bits::is_accepted(arguments),
        Load::Sorted => sorted::is_accepted(arguments),
        Load::Sparse => sparse::is_accepted(arguments),
        Load::Values => values::is_accepted(arguments),
        Load::Tree => tree::is_accepted(arguments),
        Load::Symbols => symbols::is_accepted(arguments),
        Load::Postings => documents::is_accepted(arguments),
        Load::Inverted => index::is_accepted(arguments),
    }
}

/// Returns the result of a load line. Errors: `AllocError` if the allocator refuses a request.
pub fn load<'a, A: Allocator + Copy>(
    alloc: &'a A,
    load: Load,
    arguments: &[u8],
) -> Result<Loading<Structure<'a, A>>, AllocError> {
    match load {
        Load::Bits => bits::load(alloc, arguments),
        Load::Sorted => sorted::load(alloc, arguments),
        Load::Sparse => sparse::load(alloc, arguments),
        Load::Values => values::load(alloc, arguments),
        Load::Tree => tree::load(alloc, arguments),
        Load::Symbols => symbols::load(alloc, arguments),
        Load::Postings => documents::load(alloc, arguments),
        Load::Inverted => index::load(alloc, arguments),
    }
}
