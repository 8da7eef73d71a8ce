//! An empty crate with the name of serde, so that cargo builds and tests this repository without a registry.
