//! The clauses of Rattle's library, tried of the modules that stand for it: random calls, each beside what its clauses say
//! of lists and numbers.
//!
//! Each test names the functions whose clauses it tries, `/// Of MODULE::TYPE: FUNCTION..`. `plain/called.py` tests that
//! each function of this crate that the program or the library for C calls is named, and called here.

mod commands;
mod lists;
mod maps;
mod numbers;
mod process;
mod threads;

use std::alloc::{GlobalAlloc, Layout, System};
use std::cell::Cell;

/// Rounds of a test.
const ROUNDS: u64 = 400;

/// Numbers that look random: the same in each run.
struct Random(u64);

impl Random {
    fn word(&mut self) -> u64 {
        self.0 ^= self.0 << 13;
        self.0 ^= self.0 >> 7;
        self.0 ^= self.0 << 17;
        self.0.wrapping_mul(0x2545_F491_4F6C_DD1D)
    }

    /// A number below this one.
    fn below(&mut self, bound: usize) -> usize {
        (self.word() >> 32) as usize % bound
    }

    /// So many bytes at most.
    fn bytes(&mut self, most: usize) -> Vec<u8> {
        (0..self.below(most + 1)).map(|_| self.word() as u8).collect()
    }

    /// So many characters at most, of one to four bytes.
    fn text(&mut self, most: usize) -> String {
        (0..self.below(most + 1)).map(|_| ['a', 'é', '→', '𝓛'][self.below(4)]).collect()
    }
}

/// Calls with a random source for each round.
fn rounds(mut round: impl FnMut(&mut Random)) {
    for seed in 1..=ROUNDS {
        round(&mut Random(seed.wrapping_mul(0x9E37_79B9_7F4A_7C15)));
    }
}

thread_local! {
    /// How many allocations of this thread still succeed, if one is to fail.
    static LEFT: Cell<Option<u32>> = const { Cell::new(None) };
}

/// The system's allocator, which refuses where a test wants it.
struct Refusing;

impl Refusing {
    fn refuses(&self) -> bool {
        LEFT.with(|left| match left.get() {
            Some(0) => true,
            Some(more) => {
                left.set(Some(more - 1));
                false
            }
            None => false,
        })
    }
}

// Each block is the system's.
unsafe impl GlobalAlloc for Refusing {
    unsafe fn alloc(&self, layout: Layout) -> *mut u8 {
        if self.refuses() { std::ptr::null_mut() } else { unsafe { System.alloc(layout) } }
    }

    unsafe fn dealloc(&self, block: *mut u8, layout: Layout) {
        unsafe { System.dealloc(block, layout) }
    }

    unsafe fn realloc(&self, block: *mut u8, layout: Layout, size: usize) -> *mut u8 {
        if self.refuses() { std::ptr::null_mut() } else { unsafe { System.realloc(block, layout, size) } }
    }
}

#[global_allocator]
static ALLOCATOR: Refusing = Refusing;

/// Makes a call, of which in one of three rounds each allocation fails.
fn refused<T>(random: &mut Random, call: impl FnOnce() -> T) -> T {
    if random.below(3) == 0 {
        LEFT.with(|left| left.set(Some(0)));
    }
    let result = call();
    LEFT.with(|left| left.set(None));
    result
}

// What clauses say of lists, by `take`, `drop` and `++`.

fn and<T: Clone>(one: &[T], other: &[T]) -> Vec<T> {
    one.iter().chain(other).cloned().collect()
}

fn take<T: Clone>(count: usize, list: &[T]) -> Vec<T> {
    list.iter().take(count).cloned().collect()
}

fn drop_of<T: Clone>(count: usize, list: &[T]) -> Vec<T> {
    list.iter().skip(count).cloned().collect()
}

fn inserted<T: Clone>(list: &[T], at: usize, item: T) -> Vec<T> {
    and(&and(&take(at, list), &[item]), &drop_of(at, list))
}

fn removed<T: Clone>(list: &[T], at: usize) -> Vec<T> {
    and(&take(at, list), &drop_of(at + 1, list))
}
