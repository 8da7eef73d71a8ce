//! Ascending lists as sets: intersections, unions, differences, and walks along combined sets.

use crate::rattle::prelude::*;

mod cursor;
mod gather;
mod joined;
pub mod laws;
mod operations;
mod seek;
mod several;
mod step;
mod walk;

pub use cursor::Cursor;
pub use gather::{collect, numbers_of, numbers_of_counted};
pub use joined::{Both, Either, Without};
pub use operations::{
    difference, difference_numbers_counted, difference_of, difference_of_numbers_counted,
    intersection, intersection_numbers_counted, intersection_of, intersection_of_numbers_counted,
    union, union_numbers_counted, union_of, union_of_numbers_counted,
};
pub use seek::Seek;
pub use several::{AllOf, AnyOf};
pub use step::Step;
pub use walk::Walk;
