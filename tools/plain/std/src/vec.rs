//! Lists that are made with an allocator, and answer want of memory.

use crate::alloc::{AllocError, AllocFailed, Global};
use std::marker::PhantomData;
use std::ops::{Deref, DerefMut};
use std::vec::Vec as List;

/// A list.
#[derive(Debug, PartialEq, Eq)]
pub struct Vec<T>(pub(crate) List<T>);

/// The elements of a list, one by one.
pub struct IntoIter<T, A>(std::vec::IntoIter<T>, PhantomData<A>);

impl<T> Vec<T> {
    pub fn new(_alloc: Global) -> Self {
        Vec(List::new())
    }

    pub fn with_capacity(_alloc: Global, count: usize) -> Result<Self, AllocError> {
        let mut list = List::new();
        list.try_reserve_exact(count).map_err(|_| AllocError)?;
        Ok(Vec(list))
    }

    /// What `vec![in alloc; a, b]` makes.
    pub fn of<const N: usize>(alloc: Global, elements: [T; N]) -> Result<Self, AllocError> {
        let mut list = Self::with_capacity(alloc, N)?;
        list.0.extend(elements);
        Ok(list)
    }

    /// What `vec![in alloc; element; count]` makes.
    pub fn repeated(alloc: Global, element: T, count: usize) -> Result<Self, AllocError>
    where
        T: Clone,
    {
        let mut list = Self::with_capacity(alloc, count)?;
        list.0.resize(count, element);
        Ok(list)
    }

    pub fn allocator(&self) -> &Global {
        &Global
    }

    pub fn as_slice(&self) -> &[T] {
        &self.0
    }

    pub fn as_mut_slice(&mut self) -> &mut [T] {
        &mut self.0
    }

    pub fn capacity(&self) -> usize {
        self.0.capacity()
    }

    pub fn reserve(&mut self, more: usize) -> Result<(), AllocError> {
        self.0.try_reserve(more).map_err(|_| AllocError)
    }

    pub fn push(&mut self, value: T) -> Result<(), AllocFailed<T>> {
        match self.0.try_reserve(1) {
            Ok(()) => Ok(self.0.push(value)),
            Err(_) => Err(AllocFailed { value }),
        }
    }

    /// Adds an element where there is room for it: one write.
    #[inline(always)]
    pub fn push_reserved(&mut self, value: T) {
        let count = self.0.len();
        if count >= self.0.capacity() {
            std::mem::forget(value);
            panic!("there is no room for one more");
        }
        // SAFETY: there is room behind the last element, and it is written before it counts.
        unsafe {
            self.0.as_mut_ptr().add(count).write(value);
            self.0.set_len(count + 1);
        }
    }

    pub fn pop(&mut self) -> Option<T> {
        self.0.pop()
    }

    pub fn insert(&mut self, at: usize, value: T) -> Result<(), AllocFailed<T>> {
        match self.0.try_reserve(1) {
            Ok(()) => Ok(self.0.insert(at, value)),
            Err(_) => Err(AllocFailed { value }),
        }
    }

    pub fn remove(&mut self, at: usize) -> T {
        self.0.remove(at)
    }

    pub fn append(&mut self, other: &mut Vec<T>) -> Result<(), AllocError> {
        self.reserve(other.0.len())?;
        Ok(self.0.append(&mut other.0))
    }

    pub fn extend_from_slice(&mut self, elements: &[T]) -> Result<(), AllocError>
    where
        T: Clone,
    {
        self.reserve(elements.len())?;
        Ok(self.0.extend_from_slice(elements))
    }

    pub fn resize(&mut self, count: usize, element: T) -> Result<(), AllocError>
    where
        T: Clone,
    {
        self.reserve(count.saturating_sub(self.0.len()))?;
        Ok(self.0.resize(count, element))
    }

    pub fn truncate(&mut self, count: usize) {
        self.0.truncate(count);
    }

    pub fn retain<F: FnMut(&T) -> bool>(&mut self, keeps: F) {
        self.0.retain(keeps);
    }

    pub fn clear(&mut self) {
        self.0.clear();
    }

    pub fn shrink_to_fit(&mut self) {
        self.0.shrink_to_fit();
    }

    pub fn sort_by_key<K: Ord, F: FnMut(&T) -> K>(&mut self, key: F) -> Result<(), AllocError> {
        Ok(self.0.sort_by_key(key))
    }
}

impl<T> Deref for Vec<T> {
    type Target = [T];

    fn deref(&self) -> &[T] {
        &self.0
    }
}

impl<T> DerefMut for Vec<T> {
    fn deref_mut(&mut self) -> &mut [T] {
        &mut self.0
    }
}

impl<T, A> Iterator for IntoIter<T, A> {
    type Item = T;

    fn next(&mut self) -> Option<T> {
        self.0.next()
    }

    fn size_hint(&self) -> (usize, Option<usize>) {
        self.0.size_hint()
    }
}

impl<T> IntoIterator for Vec<T> {
    type Item = T;
    type IntoIter = IntoIter<T, Global>;

    fn into_iter(self) -> IntoIter<T, Global> {
        IntoIter(self.0.into_iter(), PhantomData)
    }
}

impl<'a, T> IntoIterator for &'a Vec<T> {
    type Item = &'a T;
    type IntoIter = std::slice::Iter<'a, T>;

    fn into_iter(self) -> std::slice::Iter<'a, T> {
        self.0.iter()
    }
}

impl<'a, T> IntoIterator for &'a mut Vec<T> {
    type Item = &'a mut T;
    type IntoIter = std::slice::IterMut<'a, T>;

    fn into_iter(self) -> std::slice::IterMut<'a, T> {
        self.0.iter_mut()
    }
}

/// A slice's copy as a list: the eraser writes `to_vec(alloc)` so.
pub trait SliceToVec<T> {
    fn copied_by(&self, alloc: Global) -> Result<Vec<T>, AllocError>
    where
        T: Clone;
}

impl<T> SliceToVec<T> for [T] {
    fn copied_by(&self, alloc: Global) -> Result<Vec<T>, AllocError>
    where
        T: Clone,
    {
        let mut list = Vec::new(alloc);
        list.extend_from_slice(self)?;
        Ok(list)
    }
}

#[cfg(test)]
mod tests {
    use super::*;

    #[test]
    fn a_list_takes_and_gives_elements_in_order() {
        let mut list = crate::vec![in Global; 1, 2, 3].unwrap();
        list.push(5).unwrap();
        list.insert(3, 4).unwrap();
        assert_eq!((list.remove(0), list.pop()), (1, Some(5)));
        assert_eq!(list.as_slice(), [2, 3, 4]);
        let mut more = crate::vec![in Global; 9; 2].unwrap();
        list.append(&mut more).unwrap();
        list.extend_from_slice(&[7]).unwrap();
        assert_eq!((list.as_slice(), more.len()), ([2, 3, 4, 9, 9, 7].as_slice(), 0));
        list.sort_by_key(|x| std::cmp::Reverse(*x)).unwrap();
        list.truncate(4);
        list.retain(|x| *x != 7);
        assert_eq!(list.into_iter().collect::<List<_>>(), [9, 9, 4]);
    }

    #[test]
    fn what_no_memory_holds_is_answered() {
        assert_eq!(Vec::<u64>::with_capacity(Global, usize::MAX), Err(AllocError));
        assert_eq!(crate::vec![in Global; 0u64; usize::MAX], Err(AllocError));
        assert_eq!(Vec::<u64>::new(Global).reserve(usize::MAX), Err(AllocError));
    }

    #[test]
    fn a_slice_is_copied() {
        assert_eq!([1u8, 2].copied_by(Global).unwrap().as_slice(), [1, 2]);
    }

    #[test]
    #[should_panic]
    fn nothing_is_pushed_where_no_room_was_reserved() {
        Vec::new(Global).push_reserved(1);
    }
}
