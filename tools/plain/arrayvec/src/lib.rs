//! Stands in for arrayvec: a list of at most N elements.

use std::ops::Deref;

/// The list.
#[derive(Debug)]
pub struct ArrayVec<T, const N: usize>(Vec<T>);

/// There is no room for what was handed in.
#[derive(Debug, PartialEq, Eq)]
pub struct CapacityError<T = ()>(pub T);

impl<T, const N: usize> ArrayVec<T, N> {
    pub fn new() -> Self {
        ArrayVec(Vec::with_capacity(N))
    }

    /// Adds an element, for which there is room.
    pub fn push(&mut self, element: T) {
        assert!(self.0.len() < N);
        self.0.push(element);
    }

    pub fn try_push(&mut self, element: T) -> Result<(), CapacityError<T>> {
        if self.0.len() == N {
            return Err(CapacityError(element));
        }
        Ok(self.push(element))
    }

    pub fn try_extend_from_slice(&mut self, elements: &[T]) -> Result<(), CapacityError>
    where
        T: Copy,
    {
        if elements.len() > N - self.0.len() {
            return Err(CapacityError(()));
        }
        Ok(self.0.extend_from_slice(elements))
    }

    pub fn as_slice(&self) -> &[T] {
        &self.0
    }
}

impl<T, const N: usize> Deref for ArrayVec<T, N> {
    type Target = [T];

    fn deref(&self) -> &[T] {
        &self.0
    }
}

#[cfg(test)]
mod tests {
    use super::*;

    #[test]
    fn what_has_no_room_is_refused() {
        let mut list = ArrayVec::<u8, 3>::new();
        list.push(1);
        assert_eq!(list.try_extend_from_slice(&[2, 3, 4]), Err(CapacityError(())));
        assert_eq!(list.try_extend_from_slice(&[2, 3]), Ok(()));
        assert_eq!(list.try_push(4), Err(CapacityError(4)));
        assert_eq!(list.as_slice(), [1, 2, 3]);
    }
}
