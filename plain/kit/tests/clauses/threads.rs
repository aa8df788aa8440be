//! Threads, what they share, and clocks.

use crate::{Random, and, drop_of, refused, rounds};
use kit::HostRuntime;
use kit::alloc::Global;
use kit::atomic_table::{Join, Play, Refused, Split, Table, TableRule};
use kit::crossbeam_queue::RuledArrayQueue;
use kit::crossbeam_queue::protocol::{Outcome, Protocol};
use kit::sync::atomic::{AtomicU64, Ordering};
use kit::sync::{OnceLock, Wait};
use kit::thread::Promise;
use kit::time::Clock;
use std::rc::Rc;
use std::time::{Duration, Instant};

/// What contracts say of a table, a queue and a thread. Here they say nothing.
struct Free;

impl<S> TableRule<S, (), ()> for Free {}
impl<S> Play<S, ()> for Free {}
impl Split<()> for Free {}
impl Join<()> for Free {}
impl<T> Protocol<T, ()> for Free {}
impl<T> Outcome<T, ()> for Free {}
impl<T> Promise<T> for Free {}

type Words = Table<u32, (), (), Free, Global>;

/// Of atomic_table::Table: new slot_count close close_with
/// Of atomic_table::Shared: compare_exchange store exchange split_seat join_seat
/// Of atomic_table::Seat: turn
/// Of atomic_table::Closed: slot_count word take free
#[test]
fn a_table_has_its_words_and_slots() {
    rounds(|random| {
        let mut words: Vec<u64> = (0..1 + random.below(5)).map(|_| random.word() % 4).collect();
        let mut values: Vec<u32> = (0..1 + random.below(5)).map(|_| random.word() as u32).collect();
        let mut slots: kit::Vec<u32> = kit::Vec::new(Global);
        slots.extend_from_slice(&values).unwrap();
        let (table, mut seat) = match refused(random, || Words::new(Global, &words, slots, &())) {
            Ok(made) => made,
            Err(Refused { slots }) => {
                assert_eq!(slots.as_slice(), values);
                return;
            }
        };
        assert_eq!(table.slot_count(), values.len());
        for _ in 0..30 {
            let (word, slot) = (random.below(words.len()), random.below(values.len()));
            let (old, new) = (random.word() % 4, random.word() % 4);
            match random.below(4) {
                0 => {
                    let found = table.shared.compare_exchange::<Free>(&mut seat, word, old, new);
                    assert_eq!(found, words[word]);
                    if found == old {
                        words[word] = new;
                    }
                }
                1 => {
                    table.shared.store::<Free>(&mut seat, word, new);
                    words[word] = new;
                }
                2 => {
                    let value = random.word() as u32;
                    assert_eq!(table.shared.exchange(&mut seat, slot, value), std::mem::replace(&mut values[slot], value));
                }
                _ => {
                    let mut other = table.shared.split_seat::<Free>(&mut seat);
                    other.turn();
                    assert_eq!(table.shared.compare_exchange::<Free>(&mut other, word, 9, 0), words[word]);
                    table.shared.join_seat::<Free>(&mut seat, other);
                }
            }
        }
        let mut closed = if random.below(2) == 0 { table.close() } else { table.close_with(seat) };
        assert_eq!(closed.slot_count(), values.len());
        assert!(words.iter().enumerate().all(|(word, value)| closed.word(word) == *value));
        for (slot, value) in values.iter().enumerate().rev() {
            assert_eq!(closed.take(slot), *value);
        }
        closed.free();
    });
}

#[test]
fn words_of_a_table_are_atomic() {
    let slots = kit::Vec::new(Global);
    let (table, mut seat) = Words::new(Global, &[0], slots, &()).ok().unwrap();
    let mut seats: Vec<_> = (0..4).map(|_| table.shared.split_seat::<Free>(&mut seat)).collect();
    std::thread::scope(|threads| {
        for seat in &mut seats {
            threads.spawn(|| {
                let mut known = 0;
                for _ in 0..2000 {
                    loop {
                        let found = table.shared.compare_exchange::<Free>(seat, 0, known, known + 1);
                        let is_done = found == known;
                        known = if is_done { known + 1 } else { found };
                        if is_done {
                            break;
                        }
                    }
                }
            });
        }
    });
    assert_eq!(table.close_with(seat).word(0), 8000);
}

/// Of crossbeam_queue::RuledArrayQueue: ruled another absorb try_push_as pop_as drop
#[test]
fn a_queue_hands_on_what_it_was_given_in_order() {
    let counted = Rc::new(());
    rounds(|random: &mut Random| {
        let places = 1 + random.below(6);
        let Ok((queue, mut pass)) = refused(random, || RuledArrayQueue::<(u64, Rc<()>), (), Free>::ruled(Global, places)) else {
            return;
        };
        let mut list = Vec::new();
        for _ in 0..40 {
            let item = random.word();
            let mut other = queue.another::<Free>(&mut pass);
            if random.below(2) == 0 {
                match queue.try_push_as::<Free>(&mut other, (item, counted.clone())) {
                    Ok(()) => list = and(&list, &[item]),
                    Err(back) => assert!(back.0 == item && list.len() == places),
                }
            } else {
                let oldest = queue.pop_as::<Free, _>(&HostRuntime, &mut pass);
                assert_eq!(oldest.map(|oldest| oldest.0), list.first().copied());
                list = drop_of(1, &list);
            }
            queue.absorb::<Free>(&mut pass, other);
            assert_eq!(Rc::strong_count(&counted), 1 + list.len());
        }
    });
    assert_eq!(Rc::strong_count(&counted), 1);
}

#[test]
fn a_queue_of_threads_loses_nothing() {
    let (queue, mut pass) = RuledArrayQueue::<u64, (), Free>::ruled(Global, 8).unwrap();
    let mut passes: Vec<_> = (0..3).map(|_| queue.another::<Free>(&mut pass)).collect();
    let mut next = [0; 3];
    std::thread::scope(|threads| {
        for (from, own) in passes.iter_mut().enumerate() {
            let queue = &queue;
            threads.spawn(move || {
                for count in 0..1000 {
                    while queue.try_push_as::<Free>(own, from as u64 * 10_000 + count).is_err() {
                        std::thread::yield_now();
                    }
                }
            });
        }
        while next != [1000; 3] {
            match queue.pop_as::<Free, _>(&HostRuntime, &mut pass) {
                Some(item) => {
                    let from = (item / 10_000) as usize;
                    assert_eq!(item % 10_000, next[from]);
                    next[from] += 1;
                }
                None => std::thread::yield_now(),
            }
        }
    });
}

/// Of sync::OnceLock: new get try_set
#[test]
fn a_value_is_written_once() {
    rounds(|random| {
        let lock = OnceLock::new();
        assert_eq!(lock.get(), None);
        let first = random.word();
        assert_eq!(lock.try_set(first), Ok(()));
        let other = random.word();
        assert_eq!(lock.try_set(other), Err(other));
        assert_eq!(lock.get(), Some(&first));
    });
    let lock = OnceLock::new();
    let set: usize = std::thread::scope(|threads| {
        let setters: Vec<_> = (0..8).map(|item| threads.spawn({ let lock = &lock; move || usize::from(lock.try_set(item).is_ok()) })).collect();
        setters.into_iter().map(|setter| setter.join().unwrap()).sum()
    });
    assert!(set == 1 && lock.get().is_some());
}

/// Of sync::Wait: forever
/// Of sync::atomic::AtomicU64: new deref park_timeout wake_all
/// Of thread: sleep
/// Of rt::HostRuntime: monotonic sleep
#[test]
fn a_thread_waits_as_long_as_it_is_to() {
    let rt = HostRuntime;
    let word = AtomicU64::new(5);
    assert_eq!(word.load(Ordering::SeqCst), 5);
    assert!(rt.forever().take(1000).eq(0..1000));
    let start = rt.monotonic().unwrap();
    let clock = Instant::now();
    word.park_timeout(&rt, 4, Duration::from_secs(100));
    word.park_timeout(&rt, 5, Duration::from_millis(3));
    kit::thread::sleep(&rt, Duration::from_millis(2));
    rt.sleep(Duration::from_millis(1));
    assert!(clock.elapsed() >= Duration::from_millis(6));
    assert!(rt.monotonic().unwrap() - start >= Duration::from_millis(6));
    std::thread::scope(|threads| {
        threads.spawn(|| {
            word.store(1 << 32 | 6, Ordering::SeqCst);
            word.wake_all();
        });
        word.park_timeout(&rt, 5, Duration::from_secs(100));
    });
    assert_eq!(word.load(Ordering::SeqCst), 1 << 32 | 6);
}

/// Of thread: scope scope_env join for_each_mut available_parallelism
/// Of thread::Scope: spawn_with
/// Of thread::PromisedHandle: join
#[test]
fn each_call_of_a_thread_is_made_once() {
    let rt = HostRuntime;
    assert!(kit::thread::available_parallelism(&rt).unwrap().get() > 0);
    let mut random = Random(3);
    for _ in 0..40 {
        let count = random.below(20);
        let word = AtomicU64::new(0);
        let lent = &word;
        let sum: usize = kit::thread::scope(kit::thread::scope_env(), &rt, |scope| {
            let handles: Vec<_> = (0..count)
                .map(|item| scope.spawn_with(Free, move || { lent.fetch_add(1, Ordering::SeqCst); item }).unwrap())
                .collect();
            handles.into_iter().map(|handle| handle.join(&rt)).sum()
        });
        assert_eq!((sum, word.load(Ordering::SeqCst)), (count * count.saturating_sub(1) / 2, count as u64));
        let mut items: Vec<usize> = (0..count).collect();
        kit::thread::for_each_mut(&rt, &mut items, 1 + random.below(30), &|place, item| *item += place + 1);
        assert!(items.iter().enumerate().all(|(place, item)| *item == 2 * place + 1));
        let mut made = 0;
        assert_eq!(kit::thread::join(&rt, || count, || { made += 1; made }), (count, 1));
    }
}
