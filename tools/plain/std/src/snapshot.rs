//! What only proofs know of a value.

use std::marker::PhantomData;

/// What a value was. Nothing of it is kept.
#[derive(Debug)]
pub struct Snapshot<T>(PhantomData<fn() -> T>);

impl<T> Snapshot<T> {
    pub fn of(_value: &T) -> Self {
        Snapshot(PhantomData)
    }
}
