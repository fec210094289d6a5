//! The allocator, and what a call answers that gets no memory.

/// The one allocator.
#[derive(Clone, Copy, Debug, Default, PartialEq, Eq)]
pub struct Global;

/// An allocator. There is one, so it is made at will.
pub trait Allocator: Default {}

impl Allocator for Global {}

/// There is no memory.
#[derive(Clone, Copy, Debug, PartialEq, Eq)]
pub struct AllocError;

/// There is no memory for what was handed in, which comes back.
#[derive(Debug, PartialEq, Eq)]
pub struct AllocFailed<T> {
    pub value: T,
}

/// What hands out the allocator.
pub trait AllocGlobal {
    fn alloc(&self) -> Global {
        Global
    }
}

/// A type whose values may be dropped: in Rust, every type.
pub trait Drop {}

impl<T: ?Sized> Drop for T {}
