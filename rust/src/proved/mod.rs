//! Written by tools/plain_rust.py from the proved sources: not to be edited.
#![allow(unused_imports, unused_labels, unused_variables, unstable_name_collisions)]
#![deny(unconditional_recursion)]

pub mod vers_bits;
pub mod vers_tally;
pub mod vers_rank;
pub mod word_rank;
pub mod vers_sorted;
pub mod vers_rmq;
pub mod vers_wavelet;
pub mod wavelet_tree;
pub mod vers_trees;
pub mod postings;
pub mod text_index;
pub mod sets;
pub mod inverted;
pub mod vers_saved;
