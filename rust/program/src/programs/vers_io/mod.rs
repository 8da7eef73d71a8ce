//! Readers and writers for contracts that distinguish one call from two, and a record of whether one has failed.

use crate::rattle::prelude::*;

mod device;
mod once;

pub use device::Device;
pub use once::{Sink, Source};
