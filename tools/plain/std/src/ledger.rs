//! Counters that only proofs read: nothing of them is left.

use std::marker::PhantomData;

/// What names a ledger.
pub trait Ledger {}

impl Ledger for crate::marker::Brand {}

/// A ledger that isn't opened.
pub struct Blank;

/// What counts.
pub struct Book<L>(PhantomData<L>);

/// What may be counted.
pub struct Share<L>(PhantomData<L>);

impl Blank {
    pub fn new(_parts: u64) -> Blank {
        Blank
    }

    pub fn open<L: Ledger>(self) -> (Book<L>, Share<L>) {
        (Book(PhantomData), Share(PhantomData))
    }
}

impl<L: Ledger> Book<L> {
    pub fn add(&mut self, _share: &mut Share<L>, _count: u64) {}
}
