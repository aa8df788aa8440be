//! Lists and text of at most so many items, in place: after the crate `arrayvec`.

use crate::convert::AsStr;
use std::fmt;
use std::hash::{Hash, Hasher};
use std::io;
use std::mem::MaybeUninit;
use std::ops::{Deref, DerefMut};

/// There was no room for this.
#[derive(Clone, Copy, PartialEq, Eq)]
pub struct CapacityError<T = ()> {
    element: T,
}

impl<T> CapacityError<T> {
    pub fn element(self) -> T {
        self.element
    }
}

impl<T> fmt::Debug for CapacityError<T> {
    fn fmt(&self, f: &mut fmt::Formatter<'_>) -> fmt::Result {
        f.write_str("CapacityError: insufficient capacity")
    }
}

impl<T> fmt::Display for CapacityError<T> {
    fn fmt(&self, f: &mut fmt::Formatter<'_>) -> fmt::Result {
        f.write_str("insufficient capacity")
    }
}

/// A list of at most `N` items.
pub struct ArrayVec<T, const N: usize> {
    // The first `len` are there.
    items: [MaybeUninit<T>; N],
    len: usize,
}

impl<T, const N: usize> ArrayVec<T, N> {
    #[inline]
    pub const fn new() -> Self {
        ArrayVec {
            // An array of what need not be there need not be there.
            items: unsafe { MaybeUninit::<[MaybeUninit<T>; N]>::uninit().assume_init() },
            len: 0,
        }
    }

    #[inline]
    pub fn as_slice(&self) -> &[T] {
        unsafe { std::slice::from_raw_parts(self.items.as_ptr().cast(), self.len) }
    }

    #[inline]
    pub fn as_mut_slice(&mut self) -> &mut [T] {
        unsafe { std::slice::from_raw_parts_mut(self.items.as_mut_ptr().cast(), self.len) }
    }

    #[inline]
    pub fn len(&self) -> usize {
        self.len
    }

    #[inline]
    pub fn is_empty(&self) -> bool {
        self.len == 0
    }

    #[inline]
    pub fn is_full(&self) -> bool {
        self.len == N
    }

    #[inline]
    pub fn capacity(&self) -> usize {
        N
    }

    #[inline]
    pub fn remaining_capacity(&self) -> usize {
        N - self.len
    }

    /// Puts an item behind the others, for which there is room.
    #[inline]
    pub fn push(&mut self, item: T) {
        self.items[self.len] = MaybeUninit::new(item);
        self.len += 1;
    }

    #[inline]
    pub fn try_push(&mut self, item: T) -> Result<(), CapacityError<T>> {
        if self.len == N {
            return Err(CapacityError { element: item });
        }
        self.push(item);
        Ok(())
    }

    #[inline]
    pub fn pop(&mut self) -> Option<T> {
        if self.len == 0 {
            return None;
        }
        self.len -= 1;
        Some(unsafe { self.items[self.len].as_ptr().read() })
    }

    pub fn remove(&mut self, at: usize) -> T {
        self.as_mut_slice()[at..].rotate_left(1);
        match self.pop() {
            Some(item) => item,
            None => unreachable!(),
        }
    }

    pub fn insert(&mut self, at: usize, item: T) {
        self.push(item);
        self.as_mut_slice()[at..].rotate_right(1);
    }

    pub fn truncate(&mut self, count: usize) {
        while self.len > count {
            drop(self.pop());
        }
    }

    #[inline]
    pub fn clear(&mut self) {
        self.truncate(0);
    }
}

impl<T: Copy, const N: usize> ArrayVec<T, N> {
    /// Puts copies of these items behind the others, if there is room for all.
    #[inline]
    pub fn try_extend_from_slice(&mut self, more: &[T]) -> Result<(), CapacityError> {
        if N - self.len < more.len() {
            return Err(CapacityError { element: () });
        }
        // There is room for them, and they lie elsewhere.
        unsafe {
            let end = self.items.as_mut_ptr().add(self.len).cast();
            std::ptr::copy_nonoverlapping(more.as_ptr(), end, more.len());
        }
        self.len += more.len();
        Ok(())
    }
}

impl<T, const N: usize> Drop for ArrayVec<T, N> {
    #[inline]
    fn drop(&mut self) {
        if std::mem::needs_drop::<T>() {
            self.clear();
        }
    }
}

impl<T, const N: usize> Deref for ArrayVec<T, N> {
    type Target = [T];

    #[inline]
    fn deref(&self) -> &[T] {
        self.as_slice()
    }
}

impl<T, const N: usize> DerefMut for ArrayVec<T, N> {
    #[inline]
    fn deref_mut(&mut self) -> &mut [T] {
        self.as_mut_slice()
    }
}

impl<T, const N: usize> Default for ArrayVec<T, N> {
    fn default() -> Self {
        Self::new()
    }
}

impl<T: Clone, const N: usize> Clone for ArrayVec<T, N> {
    #[inline]
    fn clone(&self) -> Self {
        let mut copy = Self::new();
        for item in self.as_slice() {
            copy.push(item.clone());
        }
        copy
    }
}

impl<T: PartialEq, const N: usize> PartialEq for ArrayVec<T, N> {
    fn eq(&self, other: &Self) -> bool {
        self.as_slice() == other.as_slice()
    }
}

impl<T: Eq, const N: usize> Eq for ArrayVec<T, N> {}

impl<T: Hash, const N: usize> Hash for ArrayVec<T, N> {
    fn hash<H: Hasher>(&self, state: &mut H) {
        self.as_slice().hash(state);
    }
}

impl<T: fmt::Debug, const N: usize> fmt::Debug for ArrayVec<T, N> {
    fn fmt(&self, f: &mut fmt::Formatter<'_>) -> fmt::Result {
        self.as_slice().fmt(f)
    }
}

impl<T: Copy, const N: usize> TryFrom<&[T]> for ArrayVec<T, N> {
    type Error = CapacityError;

    #[inline]
    fn try_from(items: &[T]) -> Result<Self, CapacityError> {
        let mut list = Self::new();
        list.try_extend_from_slice(items)?;
        Ok(list)
    }
}

impl<T, const N: usize> From<[T; N]> for ArrayVec<T, N> {
    fn from(items: [T; N]) -> Self {
        let mut list = Self::new();
        for item in items {
            list.push(item);
        }
        list
    }
}

impl<'a, T, const N: usize> IntoIterator for &'a ArrayVec<T, N> {
    type Item = &'a T;
    type IntoIter = std::slice::Iter<'a, T>;

    #[inline]
    fn into_iter(self) -> Self::IntoIter {
        self.iter()
    }
}

impl<'a, T, const N: usize> IntoIterator for &'a mut ArrayVec<T, N> {
    type Item = &'a mut T;
    type IntoIter = std::slice::IterMut<'a, T>;

    #[inline]
    fn into_iter(self) -> Self::IntoIter {
        self.iter_mut()
    }
}

/// The items of a list, which it leaves one by one.
pub struct IntoIter<T, const N: usize> {
    // in the order from behind
    items: ArrayVec<T, N>,
}

impl<T, const N: usize> Iterator for IntoIter<T, N> {
    type Item = T;

    fn next(&mut self) -> Option<T> {
        self.items.pop()
    }
}

impl<T, const N: usize> IntoIterator for ArrayVec<T, N> {
    type Item = T;
    type IntoIter = IntoIter<T, N>;

    fn into_iter(mut self) -> IntoIter<T, N> {
        self.reverse();
        IntoIter { items: self }
    }
}

impl<const N: usize> io::Write for ArrayVec<u8, N> {
    fn write(&mut self, bytes: &[u8]) -> io::Result<usize> {
        let count = bytes.len().min(N - self.len);
        let _ = self.try_extend_from_slice(&bytes[..count]);
        Ok(count)
    }

    fn flush(&mut self) -> io::Result<()> {
        Ok(())
    }
}

/// Text of at most `N` bytes.
#[derive(Clone, PartialEq, Eq, Hash, Default)]
pub struct ArrayString<const N: usize> {
    bytes: ArrayVec<u8, N>,
}

impl<const N: usize> ArrayString<N> {
    #[inline]
    pub const fn new() -> Self {
        ArrayString { bytes: ArrayVec::new() }
    }

    pub fn from(text: &str) -> Result<Self, CapacityError<&str>> {
        let mut all = Self::new();
        all.try_push_str(text)?;
        Ok(all)
    }

    /// Adds a text, for which there is room.
    #[inline]
    pub fn push_str(&mut self, text: &str) {
        match self.bytes.try_extend_from_slice(text.as_bytes()) {
            Ok(()) => {}
            Err(error) => panic!("{error:?}"),
        }
    }

    #[inline]
    pub fn try_push_str<'a>(&mut self, text: &'a str) -> Result<(), CapacityError<&'a str>> {
        match self.bytes.try_extend_from_slice(text.as_bytes()) {
            Ok(()) => Ok(()),
            Err(_) => Err(CapacityError { element: text }),
        }
    }

    #[inline]
    pub fn push(&mut self, glyph: char) {
        if glyph.is_ascii() {
            self.bytes.push(glyph as u8);
        } else {
            self.push_str(glyph.encode_utf8(&mut [0; 4]));
        }
    }

    pub fn try_push(&mut self, glyph: char) -> Result<(), CapacityError<char>> {
        match self.try_push_str(glyph.encode_utf8(&mut [0; 4])) {
            Ok(()) => Ok(()),
            Err(_) => Err(CapacityError { element: glyph }),
        }
    }

    #[inline]
    pub fn as_str(&self) -> &str {
        // All that was added is text.
        unsafe { std::str::from_utf8_unchecked(self.bytes.as_slice()) }
    }

    #[inline]
    pub fn as_bytes(&self) -> &[u8] {
        self.bytes.as_slice()
    }

    #[inline]
    pub fn len(&self) -> usize {
        self.bytes.len()
    }

    #[inline]
    pub fn is_empty(&self) -> bool {
        self.bytes.is_empty()
    }

    #[inline]
    pub fn capacity(&self) -> usize {
        N
    }

    #[inline]
    pub fn remaining_capacity(&self) -> usize {
        self.bytes.remaining_capacity()
    }

    #[inline]
    pub fn clear(&mut self) {
        self.bytes.clear();
    }

    pub fn truncate(&mut self, count: usize) {
        assert!(self.as_str().is_char_boundary(count.min(self.len())));
        self.bytes.truncate(count);
    }
}

impl<const N: usize> Deref for ArrayString<N> {
    type Target = str;

    #[inline]
    fn deref(&self) -> &str {
        self.as_str()
    }
}

impl<const N: usize> AsStr for ArrayString<N> {
    fn as_str(&self) -> &str {
        ArrayString::as_str(self)
    }
}

impl<const N: usize> fmt::Write for ArrayString<N> {
    fn write_str(&mut self, text: &str) -> fmt::Result {
        self.try_push_str(text).map_err(|_| fmt::Error)
    }
}

impl<const N: usize> fmt::Display for ArrayString<N> {
    fn fmt(&self, f: &mut fmt::Formatter<'_>) -> fmt::Result {
        fmt::Display::fmt(self.as_str(), f)
    }
}

impl<const N: usize> fmt::Debug for ArrayString<N> {
    fn fmt(&self, f: &mut fmt::Formatter<'_>) -> fmt::Result {
        fmt::Debug::fmt(self.as_str(), f)
    }
}
