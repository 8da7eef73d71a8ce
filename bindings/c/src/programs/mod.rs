//! Written by tools/plain_rust.py from the proved sources: not to be edited.
#![allow(unused_imports, unused_labels, unused_variables, unstable_name_collisions)]
#![deny(unconditional_recursion)]

#[path = "../../../../rust/program/src/programs/catalogue/mod.rs"]
pub mod catalogue;
pub mod vers_c;
