//! The handle that C has.

use crate::rattle::prelude::*;

use crate::programs::vers_c::held::Held;

/// A handle: all zeros if it is empty, or an owner of a structure.
#[repr(C)]
pub struct VersHandle {
    /// True if the handle has an owner.
    pub is_built: bool,
    /// The owner.
    pub held: Held,
}
