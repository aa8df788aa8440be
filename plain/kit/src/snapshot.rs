//! Values as contracts saw them.

use std::marker::PhantomData;

/// A value at one moment, for contracts alone: it has no bytes.
pub struct Snapshot<T> {
    of: PhantomData<fn() -> T>,
}

impl<T> Snapshot<T> {
    pub fn of(_: &T) -> Snapshot<T> {
        Snapshot { of: PhantomData }
    }
}

impl<T> Clone for Snapshot<T> {
    fn clone(&self) -> Self {
        *self
    }
}

impl<T> Copy for Snapshot<T> {}
