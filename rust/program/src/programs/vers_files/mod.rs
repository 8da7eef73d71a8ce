//! Lists of the line program in files: `save_to` replaces a file by the saved form of a load line's list,
//! completely or not at all, `ask` answers query lines about the list of a file, `ask_text` lines about its
//! text, `index_to` replaces a file by the saved index of another one's bytes, `index_fasta_to` by that of a FASTA
//! file, `show` describes the list of a file, and `symbols_cut` counts what a load line cuts off.

use crate::rattle::prelude::*;

mod asking;
mod cut;
mod fasta;
mod indexing;
mod loading;
mod place;
mod saving;
mod showing;
mod texts;

pub use asking::ask;
pub use cut::symbols_cut;
pub use fasta::{WrongLine, index_fasta_to};
pub use indexing::index_to;
pub use loading::{fault_line, load_file, read};
pub use place::{FilePlace, Place};
pub use saving::{SaveFault, save_line, save_to};
pub use showing::{Shown, show};
pub use texts::{TextFault, ask_text, text_fault_line};
