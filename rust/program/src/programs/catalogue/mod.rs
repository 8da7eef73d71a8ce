//! The catalogue of structures: one owner of any of them, the queries that each answers, and its saved form.
//!
//! The line program, the programs on files and the C library use the structures through this crate. Another structure
//! adds a row to each table of `structure` and of `specs/Structures.antt`, and an `impl` of `Queryable` in a file of
//! its own, with its answers in `specs`.

use crate::rattle::prelude::*;

pub mod answer;
mod bits;
pub mod documents;
pub mod forms;
mod lists;
mod minima;
mod posted;
pub mod query;
pub mod queryable;
mod sorted;
mod sparse;
pub mod structure;
mod symbols;
mod text;
mod tree;
