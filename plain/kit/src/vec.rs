//! Lists.

use crate::alloc::{AllocError, AllocFailed, Global, heard};
use std::cmp::Ordering;
use std::fmt;
use std::hash::{Hash, Hasher};
use std::io;
use std::marker::PhantomData;
use std::ops::{Deref, DerefMut};

/// A list that grows. A call that needs memory says whether it got it.
pub struct Vec<T, A = Global> {
    pub(crate) items: std::vec::Vec<T>,
    alloc: PhantomData<A>,
}

impl<T, A> Vec<T, A> {
    fn of(items: std::vec::Vec<T>) -> Self {
        Vec {
            items,
            alloc: PhantomData,
        }
    }

    /// An empty list. Takes no memory.
    #[inline]
    pub fn new(_: A) -> Self {
        Self::of(std::vec::Vec::new())
    }

    /// An empty list with room for `count` items.
    pub fn with_capacity(alloc: A, count: usize) -> Result<Self, AllocError> {
        let mut list = Self::new(alloc);
        list.reserve(count)?;
        Ok(list)
    }

    /// The item `count` times.
    pub fn from_elem(alloc: A, item: T, count: usize) -> Result<Self, AllocError>
    where
        T: Clone,
    {
        let mut list = Self::with_capacity(alloc, count)?;
        list.items.resize(count, item);
        Ok(list)
    }

    /// The items of an array.
    pub fn from_array<const N: usize>(alloc: A, items: [T; N]) -> Result<Self, AllocError> {
        let mut list = Self::with_capacity(alloc, N)?;
        list.items.extend(items);
        Ok(list)
    }

    #[inline]
    pub fn as_slice(&self) -> &[T] {
        &self.items
    }

    #[inline]
    pub fn as_mut_slice(&mut self) -> &mut [T] {
        &mut self.items
    }

    pub fn capacity(&self) -> usize {
        self.items.capacity()
    }

    /// Makes room for `more` items.
    #[inline]
    pub fn reserve(&mut self, more: usize) -> Result<(), AllocError> {
        if self.items.capacity() - self.items.len() >= more {
            return Ok(());
        }
        self.grow(more)
    }

    pub fn try_reserve(&mut self, more: usize) -> Result<(), AllocError> {
        self.reserve(more)
    }

    #[cold]
    #[inline(never)]
    fn grow(&mut self, more: usize) -> Result<(), AllocError> {
        heard(|| self.items.try_reserve(more)).map_err(|_| AllocError)
    }

    /// Puts an item behind the others.
    #[inline]
    pub fn push(&mut self, item: T) -> Result<(), AllocFailed<T>> {
        if self.items.len() == self.items.capacity() && self.grow(1).is_err() {
            return Err(AllocFailed { value: item });
        }
        self.items.push(item);
        Ok(())
    }

    /// Puts an item behind the others, for which there is room.
    #[inline]
    pub fn push_reserved(&mut self, item: T) {
        self.items.push(item);
    }

    #[inline]
    pub fn pop(&mut self) -> Option<T> {
        self.items.pop()
    }

    pub fn clear(&mut self) {
        self.items.clear();
    }

    pub fn truncate(&mut self, count: usize) {
        self.items.truncate(count);
    }

    pub fn insert(&mut self, at: usize, item: T) -> Result<(), AllocFailed<T>> {
        if self.reserve(1).is_err() {
            return Err(AllocFailed { value: item });
        }
        self.items.insert(at, item);
        Ok(())
    }

    pub fn remove(&mut self, at: usize) -> T {
        self.items.remove(at)
    }

    pub fn swap_remove(&mut self, at: usize) -> T {
        self.items.swap_remove(at)
    }

    pub fn retain<F: FnMut(&T) -> bool>(&mut self, keeps: F) {
        self.items.retain(keeps);
    }

    /// Puts copies of these items behind the others.
    #[inline]
    pub fn extend_from_slice(&mut self, more: &[T]) -> Result<(), AllocError>
    where
        T: Clone,
    {
        self.reserve(more.len())?;
        self.items.extend_from_slice(more);
        Ok(())
    }

    /// Puts items behind the others until there is no more.
    pub fn extend<I: IntoIterator<Item = T>>(&mut self, more: I) -> Result<(), AllocError> {
        for item in more {
            self.push(item)?;
        }
        Ok(())
    }

    pub fn resize(&mut self, count: usize, item: T) -> Result<(), AllocError>
    where
        T: Clone,
    {
        self.reserve(count.saturating_sub(self.items.len()))?;
        self.items.resize(count, item);
        Ok(())
    }

    /// Sorts the items; equal ones keep their order.
    pub fn sort(&mut self) -> Result<(), AllocError>
    where
        T: Ord,
    {
        self.sort_by(T::cmp)
    }

    /// Rust's sorts that keep the order of equal items don't say when memory runs out. So places are sorted, each item with
    /// its own.
    pub fn sort_by<F: FnMut(&T, &T) -> Ordering>(&mut self, mut order: F) -> Result<(), AllocError> {
        if self.items.windows(2).all(|two| order(&two[0], &two[1]) != Ordering::Greater) {
            return Ok(());
        }
        let mut places = room(self.items.len())?;
        places.extend(0..self.items.len());
        places.sort_unstable_by(|one, other| order(&self.items[*one], &self.items[*other]).then(one.cmp(other)));
        self.put(&mut places, |place| place);
        Ok(())
    }

    pub fn sort_by_key<K: Ord, F: FnMut(&T) -> K>(&mut self, mut key: F) -> Result<(), AllocError> {
        self.sort_by(|one, other| key(one).cmp(&key(other)))
    }

    pub fn sort_by_cached_key<K: Ord, F: FnMut(&T) -> K>(&mut self, key: F) -> Result<(), AllocError> {
        let mut places = room(self.items.len())?;
        places.extend(self.items.iter().map(key).zip(0..));
        places.sort_unstable();
        self.put(&mut places, |(_, place)| place);
        Ok(())
    }

    /// Puts the items in the order of these places: the first one says where the first item stands.
    fn put<P>(&mut self, places: &mut [P], place: impl Fn(&mut P) -> &mut usize) {
        for at in 0..places.len() {
            let mut from = *place(&mut places[at]);
            while from < at {
                from = *place(&mut places[from]);
            }
            *place(&mut places[at]) = from;
            self.items.swap(at, from);
        }
    }

    /// Frees a list without items.
    pub fn destroy_empty(self) {
        debug_assert!(self.items.is_empty());
    }
}

/// An empty list with room for so many items.
fn room<T>(count: usize) -> Result<std::vec::Vec<T>, AllocError> {
    let mut list = std::vec::Vec::new();
    heard(|| list.try_reserve_exact(count)).map_err(|_| AllocError)?;
    Ok(list)
}

impl<T, A> Deref for Vec<T, A> {
    type Target = [T];

    #[inline]
    fn deref(&self) -> &[T] {
        &self.items
    }
}

impl<T, A> DerefMut for Vec<T, A> {
    #[inline]
    fn deref_mut(&mut self) -> &mut [T] {
        &mut self.items
    }
}

impl<T: Clone, A> Clone for Vec<T, A> {
    fn clone(&self) -> Self {
        Self::of(self.items.clone())
    }
}

impl<T: fmt::Debug, A> fmt::Debug for Vec<T, A> {
    fn fmt(&self, f: &mut fmt::Formatter<'_>) -> fmt::Result {
        self.items.fmt(f)
    }
}

impl<T: PartialEq, A> PartialEq for Vec<T, A> {
    fn eq(&self, other: &Self) -> bool {
        self.items == other.items
    }
}

impl<T: Eq, A> Eq for Vec<T, A> {}

impl<T: PartialOrd, A> PartialOrd for Vec<T, A> {
    fn partial_cmp(&self, other: &Self) -> Option<Ordering> {
        self.items.partial_cmp(&other.items)
    }
}

impl<T: Ord, A> Ord for Vec<T, A> {
    fn cmp(&self, other: &Self) -> Ordering {
        self.items.cmp(&other.items)
    }
}

impl<T: Hash, A> Hash for Vec<T, A> {
    fn hash<H: Hasher>(&self, state: &mut H) {
        self.items.hash(state);
    }
}

impl<T, A> IntoIterator for Vec<T, A> {
    type Item = T;
    type IntoIter = std::vec::IntoIter<T>;

    fn into_iter(self) -> Self::IntoIter {
        self.items.into_iter()
    }
}

impl<'a, T, A> IntoIterator for &'a Vec<T, A> {
    type Item = &'a T;
    type IntoIter = std::slice::Iter<'a, T>;

    #[inline]
    fn into_iter(self) -> Self::IntoIter {
        self.items.iter()
    }
}

impl<'a, T, A> IntoIterator for &'a mut Vec<T, A> {
    type Item = &'a mut T;
    type IntoIter = std::slice::IterMut<'a, T>;

    #[inline]
    fn into_iter(self) -> Self::IntoIter {
        self.items.iter_mut()
    }
}

impl<A> io::Write for Vec<u8, A> {
    fn write(&mut self, bytes: &[u8]) -> io::Result<usize> {
        match self.extend_from_slice(bytes) {
            Ok(()) => Ok(bytes.len()),
            Err(AllocError) => Err(io::ErrorKind::OutOfMemory.into()),
        }
    }

    fn flush(&mut self) -> io::Result<()> {
        Ok(())
    }
}

#[cfg(test)]
mod tests {
    use super::*;

    #[test]
    fn grows_and_shrinks() {
        let mut list = Vec::new(Global);
        for item in 0..100 {
            list.push(item).unwrap();
        }
        assert_eq!(list.len(), 100);
        assert_eq!(list.pop(), Some(99));
        list.truncate(3);
        list.insert(1, 7).unwrap();
        assert_eq!(list.as_slice(), [0, 7, 1, 2]);
        assert_eq!(list.remove(0), 0);
        list.extend_from_slice(&[5, 6]).unwrap();
        assert_eq!(list[2..], [2, 5, 6]);
    }

    #[test]
    fn equal_items_keep_their_order() {
        let mut list = Vec::new(Global);
        let mut state = 1u32;
        for place in 0..1000 {
            state = state.wrapping_mul(1_664_525).wrapping_add(1_013_904_223);
            list.push((state >> 28, place)).unwrap();
        }
        let mut wanted = list.as_slice().to_vec();
        wanted.sort();
        let (mut whole, mut cached) = (list.clone(), list.clone());
        whole.sort().unwrap();
        list.sort_by_key(|item| item.0).unwrap();
        cached.sort_by_cached_key(|item| item.0).unwrap();
        assert!([whole, list, cached].iter().all(|sorted| sorted.as_slice() == wanted));
    }

    #[test]
    fn too_much_memory_is_an_error() {
        assert_eq!(
            Vec::<u64>::with_capacity(Global, usize::MAX / 8).err(),
            Some(AllocError)
        );
        let mut list = Vec::from_elem(Global, 1u8, 3).unwrap();
        assert_eq!(list.reserve(usize::MAX - 2), Err(AllocError));
        assert_eq!(list.as_slice(), [1, 1, 1]);
    }
}
