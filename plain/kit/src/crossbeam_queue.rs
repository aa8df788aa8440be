//! A bounded queue for many threads: after `ArrayQueue` of the crate `crossbeam-queue`.

use crate::alloc::{AllocError, Global, heard};
use crate::sync::Wait;
use std::cell::UnsafeCell;
use std::marker::PhantomData;
use std::mem::MaybeUninit;
use std::sync::atomic::{AtomicUsize, Ordering};

/// What contracts say of a queue.
pub mod protocol {
    /// What holds between any two steps.
    pub trait Protocol<T, V> {}

    /// What a step tells its caller.
    pub trait Outcome<T, V> {}

    /// What a step that changes nothing tells its caller.
    pub trait Lesson<T, V> {}

    pub use crate::atomic_table::{Join, Split};
}

use protocol::{Join, Lesson, Outcome, Protocol, Split};

/// A token of no bytes with which a thread uses a queue.
pub struct Pass<T, V> {
    of: PhantomData<fn() -> (T, V)>,
}

/// A place. Its stamp is the count of the step that may use it next: of a push, or 1 more, of a pop.
struct Slot<T> {
    stamp: AtomicUsize,
    value: UnsafeCell<MaybeUninit<T>>,
}

/// A queue of at most as many values as it was made for.
///
/// `tail` counts pushes and `head` pops. The value of a push whose count is `n` lies in place `n % places`.
pub struct RuledArrayQueue<T, V, P> {
    head: AtomicUsize,
    tail: AtomicUsize,
    slots: std::vec::Vec<Slot<T>>,
    of: PhantomData<fn() -> (V, P)>,
}

// A value is written by the thread that counted its push and read by the one that counted its pop, in this order by the
// place's stamp.
unsafe impl<T: Send, V, P> Send for RuledArrayQueue<T, V, P> {}
unsafe impl<T: Send, V, P> Sync for RuledArrayQueue<T, V, P> {}

impl<T, V, P: Protocol<T, V>> RuledArrayQueue<T, V, P> {
    /// A queue of `places` values, and its first pass.
    pub fn ruled(_: Global, places: usize) -> Result<(Self, Pass<T, V>), AllocError> {
        let mut slots = std::vec::Vec::new();
        heard(|| slots.try_reserve_exact(places)).map_err(|_| AllocError)?;
        slots.extend((0..places).map(|place| Slot {
            stamp: AtomicUsize::new(2 * place),
            value: UnsafeCell::new(MaybeUninit::uninit()),
        }));
        let queue = RuledArrayQueue {
            head: AtomicUsize::new(0),
            tail: AtomicUsize::new(0),
            slots,
            of: PhantomData,
        };
        Ok((queue, Pass { of: PhantomData }))
    }

    pub fn another<M: Split<V>>(&self, _: &mut Pass<T, V>) -> Pass<T, V> {
        Pass { of: PhantomData }
    }

    pub fn absorb<M: Join<V>>(&self, _: &mut Pass<T, V>, _: Pass<T, V>) {}

    pub fn learn_as<M: Lesson<T, V>>(&self, _: &mut Pass<T, V>) {}

    /// Pushes a value, in one attempt. It comes back if the queue is full or another thread was in the way.
    pub fn try_push_as<M: Outcome<T, V>>(&self, _: &mut Pass<T, V>, value: T) -> Result<(), T> {
        let count = self.tail.load(Ordering::SeqCst);
        let slot = &self.slots[count % self.slots.len()];
        if slot.stamp.load(Ordering::SeqCst) != 2 * count
            || self
                .tail
                .compare_exchange(count, count + 1, Ordering::SeqCst, Ordering::SeqCst)
                .is_err()
        {
            return Err(value);
        }
        // This thread alone has counted this push, and no pop reads the place before its stamp says so.
        unsafe { (*slot.value.get()).write(value) };
        slot.stamp.store(2 * count + 1, Ordering::SeqCst);
        Ok(())
    }

    /// Takes the oldest value. There is none if every push that has begun is popped.
    pub fn pop_as<M: Outcome<T, V>, R: Wait>(&self, _: &R, _: &mut Pass<T, V>) -> Option<T> {
        loop {
            let count = self.head.load(Ordering::SeqCst);
            let slot = &self.slots[count % self.slots.len()];
            if slot.stamp.load(Ordering::SeqCst) == 2 * count + 1 {
                if self
                    .head
                    .compare_exchange(count, count + 1, Ordering::SeqCst, Ordering::SeqCst)
                    .is_ok()
                {
                    // This thread alone has counted this pop, and the push is over.
                    let value = unsafe { (*slot.value.get()).assume_init_read() };
                    slot.stamp.store(2 * (count + self.slots.len()), Ordering::SeqCst);
                    return Some(value);
                }
            } else if self.tail.load(Ordering::SeqCst) == count && self.head.load(Ordering::SeqCst) == count {
                return None;
            } else {
                std::thread::yield_now();
            }
        }
    }
}

impl<T, V, P> Drop for RuledArrayQueue<T, V, P> {
    fn drop(&mut self) {
        let (head, tail) = (*self.head.get_mut(), *self.tail.get_mut());
        let places = self.slots.len();
        for count in head..tail {
            unsafe { self.slots[count % places].value.get_mut().assume_init_drop() };
        }
    }
}

#[cfg(test)]
mod tests {
    use super::*;
    use crate::rt::HostRuntime;

    struct Any;
    impl Protocol<u64, ()> for Any {}
    impl Outcome<u64, ()> for Any {}
    impl Split<()> for Any {}

    #[test]
    fn a_full_queue_gives_a_value_back() {
        let (queue, mut pass) = RuledArrayQueue::<u64, (), Any>::ruled(Global, 3).unwrap();
        for round in 0..10 {
            for n in 0..3 {
                assert_eq!(queue.try_push_as::<Any>(&mut pass, 10 * round + n), Ok(()));
            }
            assert_eq!(queue.try_push_as::<Any>(&mut pass, 7), Err(7));
            for n in 0..3 {
                assert_eq!(queue.pop_as::<Any, _>(&HostRuntime, &mut pass), Some(10 * round + n));
            }
            assert_eq!(queue.pop_as::<Any, _>(&HostRuntime, &mut pass), None);
        }
    }

    #[test]
    fn each_thread_keeps_its_order() {
        let (queue, mut pass) = RuledArrayQueue::<u64, (), Any>::ruled(Global, 8).unwrap();
        let queue = &queue;
        std::thread::scope(|threads| {
            for thread in 0..4u64 {
                let mut pass = queue.another::<Any>(&mut pass);
                threads.spawn(move || {
                    for n in 0..5000 {
                        while queue.try_push_as::<Any>(&mut pass, thread << 32 | n).is_err() {
                            std::thread::yield_now();
                        }
                    }
                });
            }
            let mut next = [0; 4];
            let mut taken = 0;
            while taken < 20_000 {
                if let Some(value) = queue.pop_as::<Any, _>(&HostRuntime, &mut pass) {
                    let thread = (value >> 32) as usize;
                    assert_eq!(value & 0xffff_ffff, next[thread]);
                    next[thread] += 1;
                    taken += 1;
                }
            }
        });
    }
}
