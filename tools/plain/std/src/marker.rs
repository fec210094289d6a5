//! What only contracts see.

pub use core::marker::PhantomData;

/// What contracts see of a type in place of its fields.
pub trait Model {}

/// The name of a ledger.
#[derive(Debug)]
pub struct Brand;
