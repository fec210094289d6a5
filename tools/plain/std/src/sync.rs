//! Objects with several owners on several threads, and leave to wait.

use crate::alloc::{AllocError, AllocFailed, Global};
use crate::boxed::boxed;
use std::fmt::{Debug, Formatter};
use std::ops::Deref;
use std::ptr::NonNull;
use std::sync::atomic::AtomicUsize;
use std::sync::atomic::Ordering::{Acquire, Relaxed, Release};

pub use crate::ledger;
pub use std::sync::atomic;

/// The most owners of one object; more end the process, before the count could begin anew.
const MAX_OWNERS: usize = usize::MAX / 2;

/// One of the owners of an object. Rust's own `Arc` ends the process where there is no memory; this one answers so.
pub struct Arc<T>(NonNull<Owned<T>>);

/// The object, and how many owners it has.
struct Owned<T> {
    owners: AtomicUsize,
    object: T,
}

// SAFETY: as for Rust's own, an owner on another thread has the object by reference, and may be the last to drop it.
unsafe impl<T: Send + Sync> Send for Arc<T> {}
// SAFETY: as above.
unsafe impl<T: Send + Sync> Sync for Arc<T> {}

impl<T> Arc<T> {
    pub fn new(alloc: Global, value: T) -> Result<Arc<T>, AllocFailed<T>> {
        let owned = Owned { owners: AtomicUsize::new(1), object: value };
        match boxed(alloc, owned) {
            Ok(owned) => Ok(Arc(NonNull::from(Box::leak(owned)))),
            Err(failed) => Err(AllocFailed { value: failed.value.object }),
        }
    }

    /// The object, where this is its one owner.
    pub fn try_unwrap(owner: Arc<T>) -> Result<T, Arc<T>> {
        if owner.owned().owners.load(Acquire) != 1 {
            return Err(owner);
        }
        let owned = owner.0;
        std::mem::forget(owner);
        // SAFETY: `new` leaked a box, and nobody else has it.
        Ok(unsafe { Box::from_raw(owned.as_ptr()) }.object)
    }

    /// The object to be changed, where this is its one owner.
    pub fn get_mut(owner: &mut Arc<T>) -> Option<&mut T> {
        if owner.owned().owners.load(Acquire) != 1 {
            return None;
        }
        // SAFETY: nobody else has the object while its one owner is borrowed.
        Some(unsafe { &mut owner.0.as_mut().object })
    }

    /// How many owners there are.
    pub fn strong_count(owner: &Arc<T>) -> usize {
        owner.owned().owners.load(Acquire)
    }

    /// One owner more.
    pub fn try_clone(owner: &Arc<T>) -> Result<Arc<T>, AllocError> {
        if owner.owned().owners.fetch_add(1, Relaxed) > MAX_OWNERS {
            std::process::abort();
        }
        Ok(Arc(owner.0))
    }

    fn owned(&self) -> &Owned<T> {
        // SAFETY: the object stands as long as it has an owner.
        unsafe { self.0.as_ref() }
    }
}

impl<T> Drop for Arc<T> {
    fn drop(&mut self) {
        if self.owned().owners.fetch_sub(1, Release) != 1 {
            return;
        }
        // A load and not a fence, which the sanitiser for threads doesn't see: what the others did comes before the drop.
        self.owned().owners.load(Acquire);
        // SAFETY: `new` leaked a box, and this was the last to have it.
        drop(unsafe { Box::from_raw(self.0.as_ptr()) });
    }
}

impl<T> Deref for Arc<T> {
    type Target = T;

    fn deref(&self) -> &T {
        &self.owned().object
    }
}

impl<T: Debug> Debug for Arc<T> {
    fn fmt(&self, to: &mut Formatter<'_>) -> std::fmt::Result {
        (**self).fmt(to)
    }
}

/// Leave to wait for others.
pub trait Wait {
    /// Counts without end.
    fn forever(&self) -> std::ops::RangeFrom<u64> {
        0..
    }
}

impl Wait for crate::rt::HostRuntime {}

#[cfg(test)]
mod tests {
    use super::*;

    #[test]
    fn owners_share_one_object() {
        let one = Arc::new(Global, atomic::AtomicU64::new(1)).unwrap();
        let other = Arc::try_clone(&one).unwrap();
        one.store(7, atomic::Ordering::SeqCst);
        assert_eq!(other.load(atomic::Ordering::SeqCst), 7);
        let one = Arc::try_unwrap(one).unwrap_err();
        drop(other);
        assert_eq!(Arc::try_unwrap(one).unwrap().into_inner(), 7);
    }

    #[test]
    fn one_owner_may_change_the_object() {
        let mut one = Arc::new(Global, 1).unwrap();
        *Arc::get_mut(&mut one).unwrap() = 2;
        let other = Arc::try_clone(&one).unwrap();
        assert_eq!(Arc::get_mut(&mut one), None);
        assert_eq!(Arc::strong_count(&one), 2);
        drop(other);
        assert_eq!(Arc::get_mut(&mut one), Some(&mut 2));
    }
}
