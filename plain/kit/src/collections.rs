//! Queues and maps.

use crate::alloc::{AllocError, AllocFailed, Global, heard};
use std::fmt;
use std::hash::{BuildHasherDefault, Hash, Hasher};
use std::ops::{Index, IndexMut};

/// A queue.
#[derive(Clone, PartialEq, Eq)]
pub struct VecDeque<T> {
    items: std::collections::VecDeque<T>,
}

impl<T> VecDeque<T> {
    /// An empty queue. Takes no memory.
    pub fn new(_: Global) -> Self {
        VecDeque {
            items: std::collections::VecDeque::new(),
        }
    }

    pub fn with_capacity(alloc: Global, count: usize) -> Result<Self, AllocError> {
        let mut queue = Self::new(alloc);
        queue.reserve(count)?;
        Ok(queue)
    }

    /// Makes room for `more` items.
    pub fn reserve(&mut self, more: usize) -> Result<(), AllocError> {
        heard(|| self.items.try_reserve(more)).map_err(|_| AllocError)
    }

    pub fn try_reserve(&mut self, more: usize) -> Result<(), AllocError> {
        self.reserve(more)
    }

    #[inline]
    pub fn push_back(&mut self, item: T) -> Result<(), AllocFailed<T>> {
        if self.items.len() == self.items.capacity() && self.reserve(1).is_err() {
            return Err(AllocFailed { value: item });
        }
        self.items.push_back(item);
        Ok(())
    }

    #[inline]
    pub fn push_front(&mut self, item: T) -> Result<(), AllocFailed<T>> {
        if self.items.len() == self.items.capacity() && self.reserve(1).is_err() {
            return Err(AllocFailed { value: item });
        }
        self.items.push_front(item);
        Ok(())
    }

    #[inline]
    pub fn pop_front(&mut self) -> Option<T> {
        self.items.pop_front()
    }

    #[inline]
    pub fn pop_back(&mut self) -> Option<T> {
        self.items.pop_back()
    }

    #[inline]
    pub fn front(&self) -> Option<&T> {
        self.items.front()
    }

    #[inline]
    pub fn front_mut(&mut self) -> Option<&mut T> {
        self.items.front_mut()
    }

    #[inline]
    pub fn back(&self) -> Option<&T> {
        self.items.back()
    }

    #[inline]
    pub fn get(&self, at: usize) -> Option<&T> {
        self.items.get(at)
    }

    #[inline]
    pub fn get_mut(&mut self, at: usize) -> Option<&mut T> {
        self.items.get_mut(at)
    }

    pub fn remove(&mut self, at: usize) -> Option<T> {
        self.items.remove(at)
    }

    pub fn truncate(&mut self, count: usize) {
        self.items.truncate(count);
    }

    pub fn clear(&mut self) {
        self.items.clear();
    }

    #[inline]
    pub fn len(&self) -> usize {
        self.items.len()
    }

    pub fn capacity(&self) -> usize {
        self.items.capacity()
    }

    #[inline]
    pub fn is_empty(&self) -> bool {
        self.items.is_empty()
    }

    pub fn iter(&self) -> std::collections::vec_deque::Iter<'_, T> {
        self.items.iter()
    }

    pub fn iter_mut(&mut self) -> std::collections::vec_deque::IterMut<'_, T> {
        self.items.iter_mut()
    }
}

impl<T: fmt::Debug> fmt::Debug for VecDeque<T> {
    fn fmt(&self, f: &mut fmt::Formatter<'_>) -> fmt::Result {
        self.items.fmt(f)
    }
}

impl<T> Index<usize> for VecDeque<T> {
    type Output = T;

    #[inline]
    fn index(&self, at: usize) -> &T {
        &self.items[at]
    }
}

impl<T> IndexMut<usize> for VecDeque<T> {
    #[inline]
    fn index_mut(&mut self, at: usize) -> &mut T {
        &mut self.items[at]
    }
}

impl<'a, T> IntoIterator for &'a VecDeque<T> {
    type Item = &'a T;
    type IntoIter = std::collections::vec_deque::Iter<'a, T>;

    fn into_iter(self) -> Self::IntoIter {
        self.items.iter()
    }
}

/// A linked list. Only contracts use it.
#[derive(Clone, Debug, PartialEq, Eq)]
pub struct LinkedList<T> {
    items: std::collections::LinkedList<T>,
}

impl<T> LinkedList<T> {
    /// An empty list. Takes no memory.
    pub fn new(_: Global) -> Self {
        LinkedList {
            items: std::collections::LinkedList::new(),
        }
    }

    pub fn len(&self) -> usize {
        self.items.len()
    }

    pub fn is_empty(&self) -> bool {
        self.items.is_empty()
    }
}

/// A hash without a seed: the product of the state and a word, folded.
#[derive(Clone, Copy, Default)]
pub struct Folding(u64);

impl Hasher for Folding {
    fn write(&mut self, bytes: &[u8]) {
        for byte in bytes {
            self.write_u64(u64::from(*byte));
        }
    }

    fn write_u32(&mut self, word: u32) {
        self.write_u64(u64::from(word));
    }

    fn write_usize(&mut self, word: usize) {
        self.write_u64(word as u64);
    }

    fn write_u64(&mut self, word: u64) {
        let product = u128::from(self.0 ^ word ^ 0x9E37_79B9_7F4A_7C15) * 0xD6E8_FEB8_6659_FD93;
        self.0 = (product as u64) ^ ((product >> 64) as u64);
    }

    fn finish(&self) -> u64 {
        self.0
    }
}

/// A map by hashes.
#[derive(Clone)]
pub struct HashMap<K, V> {
    map: std::collections::HashMap<K, V, BuildHasherDefault<Folding>>,
}

impl<K: Eq + Hash, V> HashMap<K, V> {
    /// An empty map. Takes no memory.
    pub fn new(_: Global) -> Self {
        HashMap {
            map: Default::default(),
        }
    }

    pub fn insert(&mut self, key: K, value: V) -> Result<Option<V>, AllocFailed<(K, V)>> {
        if heard(|| self.map.try_reserve(1)).is_err() {
            return Err(AllocFailed { value: (key, value) });
        }
        Ok(self.map.insert(key, value))
    }

    pub fn get(&self, key: &K) -> Option<&V> {
        self.map.get(key)
    }

    pub fn get_mut(&mut self, key: &K) -> Option<&mut V> {
        self.map.get_mut(key)
    }

    pub fn contains_key(&self, key: &K) -> bool {
        self.map.contains_key(key)
    }

    pub fn remove(&mut self, key: &K) -> Option<V> {
        self.map.remove(key)
    }

    pub fn clear(&mut self) {
        self.map.clear();
    }

    pub fn len(&self) -> usize {
        self.map.len()
    }

    pub fn is_empty(&self) -> bool {
        self.map.is_empty()
    }
}

impl<K: fmt::Debug, V: fmt::Debug> fmt::Debug for HashMap<K, V> {
    fn fmt(&self, f: &mut fmt::Formatter<'_>) -> fmt::Result {
        self.map.fmt(f)
    }
}

/// A map by the order of its keys. Rust's doesn't say when memory runs out: then the process ends. The library for C has none.
#[derive(Clone, Debug, PartialEq, Eq)]
pub struct BTreeMap<K, V> {
    map: std::collections::BTreeMap<K, V>,
}

impl<K: Ord, V> BTreeMap<K, V> {
    /// An empty map. Takes no memory.
    pub fn new(_: Global) -> Self {
        BTreeMap {
            map: std::collections::BTreeMap::new(),
        }
    }

    pub fn insert(&mut self, key: K, value: V) -> Result<Option<V>, AllocFailed<(K, V)>> {
        Ok(self.map.insert(key, value))
    }

    /// The place of a key.
    pub fn entry(&mut self, key: K) -> Result<std::collections::btree_map::Entry<'_, K, V>, AllocFailed<K>> {
        Ok(self.map.entry(key))
    }

    pub fn get(&self, key: &K) -> Option<&V> {
        self.map.get(key)
    }

    pub fn get_mut(&mut self, key: &K) -> Option<&mut V> {
        self.map.get_mut(key)
    }

    pub fn contains_key(&self, key: &K) -> bool {
        self.map.contains_key(key)
    }

    pub fn remove(&mut self, key: &K) -> Option<V> {
        self.map.remove(key)
    }

    pub fn len(&self) -> usize {
        self.map.len()
    }

    pub fn is_empty(&self) -> bool {
        self.map.is_empty()
    }

    pub fn iter(&self) -> std::collections::btree_map::Iter<'_, K, V> {
        self.map.iter()
    }
}

#[cfg(test)]
mod tests {
    use super::*;

    #[test]
    fn a_queue_keeps_its_order() {
        let mut queue = VecDeque::new(Global);
        for item in 0..20 {
            queue.push_back(item).unwrap();
        }
        assert_eq!(queue.pop_front(), Some(0));
        assert_eq!(queue.remove(1), Some(2));
        assert_eq!(queue[1], 3);
        assert_eq!(queue.len(), 18);
        assert_eq!(queue.reserve(usize::MAX), Err(AllocError));
    }

    #[test]
    fn maps_find_what_they_have() {
        let mut map = HashMap::new(Global);
        for key in 0..1000u64 {
            map.insert(key * 4096, key).unwrap();
        }
        assert!((0..1000).all(|key| map.get(&(key * 4096)) == Some(&key)));
        assert_eq!(map.get(&1), None);
        let mut sorted = BTreeMap::new(Global);
        sorted.insert(3, 'a').unwrap();
        assert_eq!(sorted.insert(3, 'b'), Ok(Some('a')));
        assert_eq!(sorted.get(&3), Some(&'b'));
    }
}
