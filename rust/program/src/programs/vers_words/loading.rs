//! The result of parsing the arguments of a load line.

use crate::rattle::prelude::*;

/// The result of parsing the arguments of a load line.
pub enum Loading<T> {
    /// The line does not take these arguments.
    Malformed,
    /// They are well formed, but outside its limits.
    Inadmissible,
    /// They represent this value.
    Accepted(T),
}
