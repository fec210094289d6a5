//! Boxes that are made with an allocator.

use crate::alloc::{AllocFailed, Allocator, Global};
use std::alloc::Layout;

/// A box of this value: the eraser writes `Box::new` so.
pub fn boxed<T>(_alloc: Global, value: T) -> Result<Box<T>, AllocFailed<T>> {
    let layout = Layout::new::<T>();
    if layout.size() == 0 {
        return Ok(Box::new(value));
    }
    // SAFETY: the layout has a size, and what a box owns was got from the same allocator with that layout.
    unsafe {
        let place = std::alloc::alloc(layout).cast::<T>();
        if place.is_null() {
            return Err(AllocFailed { value });
        }
        place.write(value);
        Ok(Box::from_raw(place))
    }
}

/// The value of a box.
pub fn into_inner<T>(value: Box<T>) -> T {
    *value
}

/// The pointer of a box, which nothing owns then.
pub fn into_raw_with_allocator<T, A: Allocator>(value: Box<T>) -> (*mut T, A) {
    (Box::into_raw(value), A::default())
}

/// The box of a pointer.
///
/// # Safety
///
/// It was a box's, and nothing else owns it.
pub unsafe fn from_raw<T, A: Allocator>(_alloc: A, at: *mut T) -> Box<T> {
    // SAFETY: that is what the caller keeps.
    unsafe { Box::from_raw(at) }
}

#[cfg(test)]
mod tests {
    use super::*;

    #[test]
    fn a_box_has_its_value_and_may_be_empty() {
        assert_eq!(*boxed(Global, 7u64).unwrap(), 7);
        assert_eq!(*boxed(Global, ()).unwrap(), ());
    }

    #[test]
    fn a_box_goes_through_its_pointer() {
        let (at, alloc): (_, Global) = into_raw_with_allocator(boxed(Global, 7u64).unwrap());
        // SAFETY: a box has just been taken apart into the pointer.
        assert_eq!(into_inner(unsafe { from_raw(alloc, at) }), 7);
    }

    #[test]
    fn a_box_may_be_of_a_trait() {
        let shown: Box<dyn std::fmt::Debug> = boxed(Global, 7).unwrap();
        assert_eq!(format!("{shown:?}"), "7");
    }
}
