//! Waiting, and values that are written once.

use crate::rt::HostRuntime;
use std::cell::UnsafeCell;
use std::ops::Range;
use std::sync::Once;

/// What may wait for another thread.
pub trait Wait {
    /// Rounds without end.
    fn forever(&self) -> Range<u64> {
        0..u64::MAX
    }
}

impl Wait for HostRuntime {}

impl<T: Wait> Wait for &T {}

/// A value that is written once.
pub struct OnceLock<T> {
    once: Once,
    value: UnsafeCell<Option<T>>,
}

// The value is written by the one thread that `once` lets in, and read after that alone.
unsafe impl<T: Send> Send for OnceLock<T> {}
unsafe impl<T: Send + Sync> Sync for OnceLock<T> {}

impl<T> Default for OnceLock<T> {
    fn default() -> Self {
        Self::new()
    }
}

impl<T> OnceLock<T> {
    pub const fn new() -> Self {
        OnceLock {
            once: Once::new(),
            value: UnsafeCell::new(None),
        }
    }

    /// Writes the value. It comes back if there is one.
    pub fn try_set(&self, value: T) -> Result<(), T> {
        let mut given = Some(value);
        self.once.call_once(|| unsafe { *self.value.get() = given.take() });
        match given {
            None => Ok(()),
            Some(value) => Err(value),
        }
    }

    pub fn get(&self) -> Option<&T> {
        if self.once.is_completed() {
            unsafe { (*self.value.get()).as_ref() }
        } else {
            None
        }
    }
}

/// Words that threads share.
pub mod atomic {
    use std::ops::Deref;
    use std::time::{Duration, Instant};

    pub use std::sync::atomic::{AtomicBool, AtomicU8, AtomicU16, AtomicU32, AtomicUsize, Ordering};

    /// A word on which a thread may sleep.
    #[derive(Debug, Default)]
    pub struct AtomicU64(std::sync::atomic::AtomicU64);

    impl AtomicU64 {
        pub const fn new(value: u64) -> AtomicU64 {
            AtomicU64(std::sync::atomic::AtomicU64::new(value))
        }

        /// Sleeps while the low 32 bits of the word are `expected`, and no longer than that.
        pub fn park_timeout<R>(&self, _: &R, expected: u32, longest: Duration) {
            let step = Duration::from_millis(2);
            let begun = Instant::now();
            while self.load(Ordering::SeqCst) as u32 == expected {
                match longest.checked_sub(begun.elapsed()) {
                    Some(left) => std::thread::sleep(left.min(step)),
                    None => return,
                }
            }
        }

        /// Ends the sleep of all that sleep on the word, which look at it themselves.
        pub fn wake_all(&self) {}

        /// Ends the sleep of one that sleeps on the word.
        pub fn wake_one(&self) {}
    }

    impl Deref for AtomicU64 {
        type Target = std::sync::atomic::AtomicU64;

        #[inline]
        fn deref(&self) -> &Self::Target {
            &self.0
        }
    }
}

#[cfg(test)]
mod tests {
    use super::*;

    #[test]
    fn the_first_value_stands() {
        let lock = OnceLock::new();
        assert_eq!(lock.get(), None);
        assert_eq!(lock.try_set(3), Ok(()));
        assert_eq!(lock.try_set(4), Err(4));
        assert_eq!(lock.get(), Some(&3));
    }

    #[test]
    fn a_sleep_ends() {
        let word = atomic::AtomicU64::new(1);
        word.park_timeout(&HostRuntime, 0, std::time::Duration::from_secs(60));
        word.park_timeout(&HostRuntime, 1, std::time::Duration::from_millis(3));
    }
}
