pub use crate::rattle::owners::Loose;
