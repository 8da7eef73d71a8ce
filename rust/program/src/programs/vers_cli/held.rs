//! The current structure.

use crate::rattle::prelude::*;

use crate::programs::catalogue::structure::Structure;
use crate::rattle::AllocError;
use crate::rattle::Allocator;
use crate::programs::vers_words::loading::Loading;

/// The structure of the last accepted load line, if there was one.
pub enum Held<'a, A: Allocator + Copy> {
    /// No structure.
    Nothing,
    /// A structure.
    Holding(Structure<'a, A>),
}

impl<A: Allocator + Copy> Held<'_, A> {
    /// Returns the length of the current structure, or 0 if there is none.
    pub fn len(&self) -> u64 {
        match self {
            Held::Nothing => 0,
            Held::Holding(structure) => structure.len(),
        }
    }
}
