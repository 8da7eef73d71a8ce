//! The text of lines: words and the numbers that they represent, the arguments of a line, and the replies to
//! lines and their text.

use crate::rattle::prelude::*;

pub mod arguments;
pub mod laws;
pub mod loading;
pub mod names;
pub mod patterns;
pub mod reply;
pub mod text;
