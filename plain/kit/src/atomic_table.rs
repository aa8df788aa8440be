//! Words that threads step on, and slots for values beside them.
//!
//! In Rattle a table has a rule, which says when a seat may read and write a slot, and each step is proved to keep it. So
//! no two threads use a slot at once, and no lock here is ever waited for.

use crate::alloc::{Allocator, heard};
use crate::vec::Vec;
use std::marker::PhantomData;
use std::mem;
use std::sync::atomic::{AtomicU64, Ordering};
use std::sync::{Mutex, MutexGuard, PoisonError};

/// What holds between any two steps, for contracts alone.
pub trait TableRule<S, V, K> {}

/// What a step tells its caller, for contracts alone.
pub trait Play<S, V> {}

/// How a view is split, for contracts alone.
pub trait Split<V> {}

/// How views are joined, for contracts alone.
pub trait Join<V> {}

/// A token of no bytes with which a thread steps.
pub struct Seat<S, V> {
    of: PhantomData<fn() -> (S, V)>,
}

impl<S, V> Seat<S, V> {
    fn new() -> Self {
        Seat { of: PhantomData }
    }

    /// Brings the slot that was taken next to the front, for contracts alone.
    pub fn turn(&mut self) {}
}

/// The words and the slots.
pub struct Shared<S, V, K, P> {
    words: std::vec::Vec<AtomicU64>,
    slots: std::vec::Vec<Mutex<S>>,
    of: PhantomData<fn() -> (V, K, P)>,
}

fn held<S>(slot: &Mutex<S>) -> MutexGuard<'_, S> {
    slot.lock().unwrap_or_else(PoisonError::into_inner)
}

impl<S, V, K, P: TableRule<S, V, K>> Shared<S, V, K, P> {
    /// The word, which becomes `new` if it was `old`.
    #[inline]
    pub fn compare_exchange<M: Play<S, V>>(&self, _: &mut Seat<S, V>, word: usize, old: u64, new: u64) -> u64 {
        match self.words[word].compare_exchange(old, new, Ordering::SeqCst, Ordering::SeqCst) {
            Ok(found) | Err(found) => found,
        }
    }

    /// The word as it is, for which no seat is needed.
    #[inline]
    pub fn peek(&self, word: usize) -> u64 {
        self.words[word].load(Ordering::SeqCst)
    }

    #[inline]
    pub fn load<M: Play<S, V>>(&self, _: &mut Seat<S, V>, word: usize) -> u64 {
        self.words[word].load(Ordering::SeqCst)
    }

    #[inline]
    pub fn store<M: Play<S, V>>(&self, _: &mut Seat<S, V>, word: usize, new: u64) {
        self.words[word].store(new, Ordering::SeqCst);
    }

    #[inline]
    pub fn swap<M: Play<S, V>>(&self, _: &mut Seat<S, V>, word: usize, new: u64) -> u64 {
        self.words[word].swap(new, Ordering::SeqCst)
    }

    /// The value of a slot that the seat holds, which this one takes the place of.
    #[inline]
    pub fn exchange(&self, _: &mut Seat<S, V>, slot: usize, value: S) -> S {
        mem::replace(&mut *held(&self.slots[slot]), value)
    }

    pub fn split_seat<M: Split<V>>(&self, _: &mut Seat<S, V>) -> Seat<S, V> {
        Seat::new()
    }

    pub fn join_seat<M: Join<V>>(&self, _: &mut Seat<S, V>, _: Seat<S, V>) {}
}

/// A table.
pub struct Table<S, V, K, P, A> {
    pub shared: Shared<S, V, K, P>,
    alloc: PhantomData<A>,
}

/// There was no memory for a table of these slots.
pub struct Refused<S, A> {
    pub slots: Vec<S, A>,
}

impl<S, V, K, P: TableRule<S, V, K>, A: Allocator> Table<S, V, K, P, A> {
    /// A table of these words and slots, and its first seat. The key is for contracts alone.
    pub fn new(_: A, words: &[u64], slots: Vec<S, A>, _: &K) -> Result<(Self, Seat<S, V>), Refused<S, A>> {
        let mut all = std::vec::Vec::new();
        let mut row = std::vec::Vec::new();
        let reserved = heard(|| all.try_reserve_exact(words.len()).and_then(|()| row.try_reserve_exact(slots.len())));
        if reserved.is_err() {
            return Err(Refused { slots });
        }
        all.extend(words.iter().copied().map(AtomicU64::new));
        row.extend(slots.into_iter().map(Mutex::new));
        let shared = Shared {
            words: all,
            slots: row,
            of: PhantomData,
        };
        Ok((
            Table {
                shared,
                alloc: PhantomData,
            },
            Seat::new(),
        ))
    }

    pub fn word_count(&self) -> usize {
        self.shared.words.len()
    }

    pub fn slot_count(&self) -> usize {
        self.shared.slots.len()
    }

    pub fn close(self) -> Closed<S, A> {
        let slots = self.shared.slots.into_iter();
        Closed {
            words: self.shared.words.into_iter().map(AtomicU64::into_inner).collect(),
            slots: slots
                .map(|slot| Some(slot.into_inner().unwrap_or_else(PoisonError::into_inner)))
                .collect(),
            alloc: PhantomData,
        }
    }

    pub fn close_with(self, _: Seat<S, V>) -> Closed<S, A> {
        self.close()
    }
}

/// A table that no thread steps on any more.
pub struct Closed<S, A> {
    words: std::vec::Vec<u64>,
    slots: std::vec::Vec<Option<S>>,
    alloc: PhantomData<A>,
}

impl<S, A> Closed<S, A> {
    pub fn slot_count(&self) -> usize {
        self.slots.len()
    }

    pub fn word(&self, word: usize) -> u64 {
        self.words[word]
    }

    /// The value of a slot, which is taken once.
    pub fn take(&mut self, slot: usize) -> S {
        match self.slots[slot].take() {
            Some(value) => value,
            None => panic!("slot {slot} was taken"),
        }
    }

    /// Frees the table, whose slots were taken.
    pub fn free(self) {}
}

#[cfg(test)]
mod tests {
    use super::*;
    use crate::alloc::Global;

    struct Any;
    impl TableRule<Option<u8>, (), ()> for Any {}
    impl Play<Option<u8>, ()> for Any {}
    impl Split<()> for Any {}
    impl Join<()> for Any {}

    #[test]
    fn steps_and_slots() {
        let slots = Vec::from_array(Global, [Some(3), None]).unwrap();
        let Ok((table, mut seat)) = Table::<_, _, _, Any, _>::new(Global, &[0, 9], slots, &()) else {
            panic!("no memory")
        };
        let steps = &table.shared;
        let mut other = steps.split_seat::<Any>(&mut seat);
        assert_eq!(steps.compare_exchange::<Any>(&mut other, 0, 0, 5), 0);
        assert_eq!(steps.compare_exchange::<Any>(&mut seat, 0, 0, 6), 5);
        assert_eq!(steps.exchange(&mut other, 0, Some(4)), Some(3));
        steps.join_seat::<Any>(&mut seat, other);
        let mut closed = table.close_with(seat);
        assert_eq!((closed.word(0), closed.word(1), closed.slot_count()), (5, 9, 2));
        assert_eq!((closed.take(0), closed.take(1)), (Some(4), None));
        closed.free();
    }
}
