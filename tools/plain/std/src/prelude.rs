//! The names that each module has without importing them.

pub use crate::alloc::{AllocGlobal, Drop};
pub use crate::rt::HostRuntime;
pub use crate::vec::{SliceToVec, Vec};
pub use crate::{println, prove, vec};
pub use std::boxed::Box;
