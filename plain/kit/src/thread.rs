//! Threads.

use crate::alloc::AllocError;
use crate::rt::HostRuntime;
use crate::sync::Wait;
use crate::time::Clock;
use std::marker::PhantomData;
use std::num::NonZeroUsize;
use std::sync::mpsc::{Receiver, Sender, channel, sync_channel};
use std::time::Duration;

pub use std::thread::yield_now;

/// What starts and joins threads.
pub trait Threads {}

impl Threads for HostRuntime {}

impl<T: Threads> Threads for &T {}

/// The thread sleeps as long, by the clock.
pub fn sleep<C: Clock>(clock: &C, duration: Duration) {
    clock.sleep(duration);
}

/// What is promised of a thread's result, for contracts alone.
pub trait Promise<T> {}

/// How many threads the machine runs at once.
pub fn available_parallelism<R: Threads>(_: &R) -> std::io::Result<NonZeroUsize> {
    std::thread::available_parallelism()
}

/// Calls both, each in a thread of its own if one can be had.
pub fn join<R: Threads, A: Send, B: Send>(
    _: &R,
    first: impl FnOnce() -> A + Send,
    second: impl FnOnce() -> B + Send,
) -> (A, B) {
    let first: Job<'_, A> = std::boxed::Box::new(first);
    std::thread::scope(|threads| {
        let (give, take) = sync_channel(1);
        let (hand, handed) = sync_channel::<Job<'_, A>>(1);
        let started = std::thread::Builder::new().spawn_scoped(threads, move || {
            for job in handed {
                let _ = give.send(job());
            }
        });
        if started.is_err() {
            return (first(), second());
        }
        let _ = hand.send(first);
        drop(hand);
        let second = second();
        (received(&take), second)
    })
}

/// Calls the function with each place of the slice and what is there, in at most so many threads.
pub fn for_each_mut<R: Threads + Sync, T: Send, F: Fn(usize, &mut T) + Sync>(
    rt: &R,
    all: &mut [T],
    threads: usize,
    call: &F,
) {
    let size = all.len() / threads + usize::from(all.len() % threads > 0);
    for_each_from(rt, 0, size, all, call);
}

/// Each part of so many places has a thread of its own if one can be had.
fn for_each_from<R: Threads + Sync, T: Send, F: Fn(usize, &mut T) + Sync>(
    rt: &R,
    from: usize,
    size: usize,
    all: &mut [T],
    call: &F,
) {
    if all.len() <= size {
        for (place, one) in all.iter_mut().enumerate() {
            call(from + place, one);
        }
        return;
    }
    let half = (all.len() / size + usize::from(all.len() % size > 0)) / 2 * size;
    let (front, back) = all.split_at_mut(half);
    join(
        rt,
        || for_each_from(rt, from, size, front, call),
        || for_each_from(rt, from + half, size, back, call),
    );
}

type Job<'a, T> = std::boxed::Box<dyn FnOnce() -> T + Send + 'a>;

fn received<T>(from: &Receiver<T>) -> T {
    match from.recv() {
        Ok(value) => value,
        Err(_) => panic!("a thread has panicked"),
    }
}

/// What a scope is asked to start, and where it says whether it did.
type Request<'s> = (Job<'s, ()>, Sender<Result<(), AllocError>>);

/// A scope of threads: all have ended when it ends.
pub struct Scope<'s, E> {
    requests: Sender<Request<'s>>,
    of: PhantomData<fn() -> E>,
}

/// What stands for the lifetimes around a scope.
pub struct ScopeEnv;

pub fn scope_env() -> ScopeEnv {
    ScopeEnv
}

/// Lends a scope of threads, and ends when all of them have.
///
/// A thread of the scope's own starts them, so that what they borrow may be as long-lived as the scope's name says.
pub fn scope<'s, R: Wait, T, F: FnOnce(&Scope<'s, ScopeEnv>) -> T>(_: ScopeEnv, _: &R, call: F) -> T {
    let (requests, asked) = channel::<Request<'s>>();
    let scope = Scope {
        requests,
        of: PhantomData,
    };
    std::thread::scope(|threads| {
        let started = std::thread::Builder::new().spawn_scoped(threads, move || {
            for (job, tell) in asked {
                let started = std::thread::Builder::new().spawn_scoped(threads, job);
                let _ = tell.send(started.map(drop).map_err(|_| AllocError));
            }
        });
        drop(started);
        let done = call(&scope);
        drop(scope);
        done
    })
}

impl<'s, E> Scope<'s, E> {
    fn start<T: Send + 's, F: FnOnce() -> T + Send + 's>(&self, call: F) -> Result<Receiver<T>, AllocError> {
        let (give, take) = sync_channel(1);
        let (tell, told) = channel();
        let job = std::boxed::Box::new(move || {
            let _ = give.send(call());
        });
        self.requests.send((job, tell)).map_err(|_| AllocError)?;
        told.recv().map_err(|_| AllocError)??;
        Ok(take)
    }

    /// Starts a thread.
    pub fn spawn<T: Send + 's, F: FnOnce() -> T + Send + 's>(&self, call: F) -> Result<JoinHandle<T>, AllocError> {
        Ok(JoinHandle {
            from: self.start(call)?,
        })
    }

    /// Starts a thread, of whose result this is promised.
    pub fn spawn_with<P: Promise<T>, T: Send + 's, F: FnOnce() -> T + Send + 's>(
        &self,
        promise: P,
        call: F,
    ) -> Result<PromisedHandle<T, P>, AllocError> {
        Ok(PromisedHandle {
            from: self.start(call)?,
            promise,
        })
    }
}

/// A thread.
pub struct JoinHandle<T> {
    from: Receiver<T>,
}

impl<T> JoinHandle<T> {
    /// What the thread returns.
    pub fn join<R: Threads>(self, _: &R) -> T {
        received(&self.from)
    }
}

/// A thread with its promise.
pub struct PromisedHandle<T, P> {
    from: Receiver<T>,
    pub promise: P,
}

impl<T, P> PromisedHandle<T, P> {
    /// What the thread returns.
    pub fn join<R: Threads>(self, _: &R) -> T {
        received(&self.from)
    }
}

#[cfg(test)]
mod tests {
    use super::*;
    use std::sync::atomic::{AtomicU64, Ordering};

    #[test]
    fn both_calls_of_a_join_return() {
        let mut word = 1;
        let (a, b) = join(
            &HostRuntime,
            || 7,
            || {
                word += 1;
                word
            },
        );
        assert_eq!((a, b), (7, 2));
    }

    #[test]
    fn each_place_is_called_once() {
        for (count, threads) in [(0, 3), (1, 1), (5, 4), (7, 3), (64, 64), (10, 1), (3, 64)] {
            let mut all = vec![0; count];
            for_each_mut(&HostRuntime, &mut all, threads, &|place, one| *one += place + 1);
            assert!(all.into_iter().eq(1..=count));
        }
    }

    #[test]
    fn a_scope_waits_for_its_threads() {
        let count = AtomicU64::new(0);
        let lent = &count;
        let sum = scope(scope_env(), &HostRuntime, |scope| {
            let mut handles = std::vec::Vec::new();
            for n in 0..8u64 {
                handles.push(
                    scope
                        .spawn(move || {
                            lent.fetch_add(1, Ordering::SeqCst);
                            n
                        })
                        .unwrap(),
                );
            }
            drop(scope.spawn(move || {
                lent.fetch_add(1, Ordering::SeqCst);
            }));
            handles.into_iter().map(|handle| handle.join(&HostRuntime)).sum::<u64>()
        });
        assert_eq!((sum, count.load(Ordering::SeqCst)), (28, 9));
    }
}
