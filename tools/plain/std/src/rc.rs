//! Objects with several owners on one thread.

use crate::alloc::{AllocFailed, Global};
use std::ops::Deref;

/// One of the owners. Where there is no memory for the object, the process ends.
#[derive(Debug)]
pub struct Rc<T>(std::rc::Rc<T>);

impl<T> Rc<T> {
    pub fn new(_alloc: Global, value: T) -> Result<Rc<T>, AllocFailed<T>> {
        Ok(Rc(std::rc::Rc::new(value)))
    }
}

impl<T> Deref for Rc<T> {
    type Target = T;

    fn deref(&self) -> &T {
        &self.0
    }
}

impl<T> Clone for Rc<T> {
    fn clone(&self) -> Self {
        Rc(self.0.clone())
    }
}

#[cfg(test)]
mod tests {
    use super::*;
    use std::cell::Cell;

    #[test]
    fn owners_share_one_object() {
        let one = Rc::new(Global, Cell::new(1)).unwrap();
        let other = one.clone();
        one.set(7);
        assert_eq!(other.get(), 7);
    }
}
