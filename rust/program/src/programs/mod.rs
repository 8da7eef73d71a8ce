//! Written by tools/plain_rust.py from the proved sources: not to be edited.
#![allow(unused_imports, unused_labels, unused_variables, unstable_name_collisions)]
#![deny(unconditional_recursion)]

pub mod vers_io;
pub mod catalogue;
pub mod vers_words;
pub mod vers_engine;
pub mod vers_cli;
pub mod vers_texts;
pub mod vers_files;
pub mod vers_commands;
