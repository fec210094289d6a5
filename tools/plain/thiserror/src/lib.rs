//! Stands in for thiserror: the eraser leaves the derive out, whose texts no code of the crates reads.

/// What `use thiserror::Error` names.
pub trait Error {}
