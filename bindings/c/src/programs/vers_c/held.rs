pub type Held = crate::rattle::owners::Held<super::kept::Owner>;
