//! Queues and maps that are made with an allocator.

use crate::alloc::{AllocError, AllocFailed, Global};
use crate::vec::Vec;
use std::collections::{btree_map, hash_map};
use std::hash::Hash;
use std::ops::{Deref, DerefMut};

pub use std::collections::LinkedList;

/// A queue with two ends.
#[derive(Debug)]
pub struct VecDeque<T>(std::collections::VecDeque<T>);

impl<T> VecDeque<T> {
    pub fn new(_alloc: Global) -> Self {
        VecDeque(std::collections::VecDeque::new())
    }

    pub fn push_back(&mut self, value: T) -> Result<(), AllocFailed<T>> {
        match self.0.try_reserve(1) {
            Ok(()) => Ok(self.0.push_back(value)),
            Err(_) => Err(AllocFailed { value }),
        }
    }
}

impl<T> From<Vec<T>> for VecDeque<T> {
    fn from(list: Vec<T>) -> Self {
        VecDeque(list.0.into())
    }
}

impl<T> Deref for VecDeque<T> {
    type Target = std::collections::VecDeque<T>;

    fn deref(&self) -> &Self::Target {
        &self.0
    }
}

impl<T> DerefMut for VecDeque<T> {
    fn deref_mut(&mut self) -> &mut Self::Target {
        &mut self.0
    }
}

/// A map in the order of its keys. Where there is no memory for it, the process ends.
#[derive(Debug)]
pub struct BTreeMap<K, V>(btree_map::BTreeMap<K, V>);

/// A place of a map.
pub struct Entry<'a, K, V>(btree_map::Entry<'a, K, V>);

impl<K: Ord, V> BTreeMap<K, V> {
    pub fn new(_alloc: Global) -> Self {
        BTreeMap(btree_map::BTreeMap::new())
    }

    pub fn insert(&mut self, key: K, value: V) -> Result<Option<V>, AllocFailed<(K, V)>> {
        Ok(self.0.insert(key, value))
    }

    pub fn entry(&mut self, key: K) -> Result<Entry<'_, K, V>, AllocError> {
        Ok(Entry(self.0.entry(key)))
    }
}

impl<'a, K: Ord, V> Entry<'a, K, V> {
    pub fn or_insert(self, value: V) -> &'a mut V {
        self.0.or_insert(value)
    }
}

impl<K, V> Deref for BTreeMap<K, V> {
    type Target = btree_map::BTreeMap<K, V>;

    fn deref(&self) -> &Self::Target {
        &self.0
    }
}

impl<K, V> DerefMut for BTreeMap<K, V> {
    fn deref_mut(&mut self) -> &mut Self::Target {
        &mut self.0
    }
}

/// A map in no order.
#[derive(Debug)]
pub struct HashMap<K, V>(hash_map::HashMap<K, V>);

impl<K: Eq + Hash, V> HashMap<K, V> {
    pub fn new(_alloc: Global) -> Self {
        HashMap(hash_map::HashMap::new())
    }

    pub fn insert(&mut self, key: K, value: V) -> Result<Option<V>, AllocFailed<(K, V)>> {
        match self.0.try_reserve(1) {
            Ok(()) => Ok(self.0.insert(key, value)),
            Err(_) => Err(AllocFailed { value: (key, value) }),
        }
    }
}

impl<K, V> Deref for HashMap<K, V> {
    type Target = hash_map::HashMap<K, V>;

    fn deref(&self) -> &Self::Target {
        &self.0
    }
}

#[cfg(test)]
mod tests {
    use super::*;

    #[test]
    fn a_queue_gives_first_what_came_first() {
        let mut queue = VecDeque::from(crate::vec![in Global; 1, 2].unwrap());
        queue.push_back(3).unwrap();
        assert_eq!([queue.pop_front(), queue.pop_front(), queue.pop_front(), queue.pop_front()], [Some(1), Some(2), Some(3), None]);
    }

    #[test]
    fn a_map_answers_what_was_there() {
        let mut ordered = BTreeMap::new(Global);
        assert_eq!((ordered.insert(2, 'a'), ordered.insert(2, 'b')), (Ok(None), Ok(Some('a'))));
        assert_eq!((*ordered.entry(1).unwrap().or_insert('c'), *ordered.entry(2).unwrap().or_insert('d')), ('c', 'b'));
        assert_eq!(ordered.keys().copied().collect::<std::vec::Vec<_>>(), [1, 2]);
        let mut hashed = HashMap::new(Global);
        assert_eq!((hashed.insert(2, 'a'), hashed.insert(2, 'b')), (Ok(None), Ok(Some('a'))));
        assert_eq!((hashed.get(&2), hashed.get(&1)), (Some(&'b'), None));
    }
}
