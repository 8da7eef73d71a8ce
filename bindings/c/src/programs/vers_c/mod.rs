//! The structures of the library, for C.
//!
//! A handle is empty, or an owner of one structure. Exports build a structure into a handle, query, change and
//! save it, make another owner of it for another thread, and drop an owner. Every precondition is tested here:
//! a call that fails returns a status and leaves everything unchanged.

use crate::rattle::prelude::*;

pub mod answer;
pub mod asked;
pub mod asks;
pub mod batch;
pub mod builds;
pub mod change;
pub mod combine;
pub mod counts;
pub mod documents;
pub mod handle;
pub mod held;
pub mod kept;
pub mod loose;
pub mod makes;
pub mod owners;
pub mod quick;
pub mod saves;
pub mod shares;
pub mod status;
pub mod text;
pub mod texts;
