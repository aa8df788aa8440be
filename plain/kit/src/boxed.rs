//! A value in a block of its own.

use crate::alloc::{AllocFailed, Allocator, Global, heard};
use std::alloc::Layout;
use std::fmt;
use std::marker::PhantomData;
use std::ops::{Deref, DerefMut};

/// A value in a block of its own.
pub struct Box<T, A = Global> {
    inner: std::boxed::Box<T>,
    alloc: PhantomData<A>,
}

impl<T, A> Box<T, A> {
    /// Puts a value into a block of its own. It comes back if there is no memory for it.
    pub fn new(_: A, value: T) -> Result<Self, AllocFailed<T>> {
        let layout = Layout::new::<T>();
        let inner = if layout.size() == 0 {
            std::boxed::Box::new(value)
        } else {
            // The block has the layout of a `T`, and is written before it is owned.
            unsafe {
                let block = heard(|| std::alloc::alloc(layout)).cast::<T>();
                if block.is_null() {
                    return Err(AllocFailed { value });
                }
                block.write(value);
                std::boxed::Box::from_raw(block)
            }
        };
        Ok(Box {
            inner,
            alloc: PhantomData,
        })
    }

    /// The value. Its block is freed.
    pub fn into_inner(b: Self) -> T {
        *b.inner
    }

    /// The address of the value, and its allocator. Whoever has both owns the value.
    pub fn into_raw_with_allocator(b: Self) -> (*mut T, A)
    where
        A: Allocator,
    {
        (std::boxed::Box::into_raw(b.inner), A::default())
    }

    /// The box again.
    ///
    /// # Safety
    ///
    /// The address is one that [`into_raw_with_allocator`](Self::into_raw_with_allocator) gave, and this is the first
    /// call with it.
    pub unsafe fn from_raw(_: A, at: *mut T) -> Self {
        Box {
            inner: unsafe { std::boxed::Box::from_raw(at) },
            alloc: PhantomData,
        }
    }
}

impl<T, A> Deref for Box<T, A> {
    type Target = T;

    #[inline]
    fn deref(&self) -> &T {
        &self.inner
    }
}

impl<T, A> DerefMut for Box<T, A> {
    #[inline]
    fn deref_mut(&mut self) -> &mut T {
        &mut self.inner
    }
}

impl<T: fmt::Debug, A> fmt::Debug for Box<T, A> {
    fn fmt(&self, f: &mut fmt::Formatter<'_>) -> fmt::Result {
        self.inner.fmt(f)
    }
}

impl<T: PartialEq, A> PartialEq for Box<T, A> {
    fn eq(&self, other: &Self) -> bool {
        self.inner == other.inner
    }
}

impl<T: Eq, A> Eq for Box<T, A> {}

#[cfg(test)]
mod tests {
    use super::*;

    #[test]
    fn a_value_comes_back() {
        let held = Box::new(Global, [7u64; 9]).unwrap();
        assert_eq!(held[8], 7);
        let (at, alloc) = Box::into_raw_with_allocator(held);
        let again: Box<[u64; 9]> = unsafe { Box::from_raw(alloc, at) };
        assert_eq!(Box::into_inner(again), [7; 9]);
        assert_eq!(Box::into_inner(Box::new(Global, ()).unwrap()), ());
    }
}
