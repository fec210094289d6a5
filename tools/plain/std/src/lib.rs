//! What the crates use of Rattle's std, over Rust's: stands in for it where nothing is proved.
//!
//! A call that takes memory is handed an allocator and answers a `Result`, and a call that prints, opens files or starts
//! threads is handed the runtime, as in Rattle. A clause that requires something is checked by nobody.

#[macro_use]
mod macros;
pub mod alloc;
pub mod boxed;
pub mod collections;
pub mod env;
pub mod fs;
pub mod io;
pub mod ledger;
pub mod marker;
pub mod process;
pub mod rt;
pub mod snapshot;
pub mod thread;
pub mod vec;

pub mod prelude;
pub mod rc;
pub mod sync;

pub use std::{cell, error, fmt, hint, mem, ops, ptr, slice, str};
