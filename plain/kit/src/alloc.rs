//! Allocation that may fail.

use std::alloc::{GlobalAlloc, Layout, System};
use std::cell::Cell;
use std::fmt;

/// The allocator of the process.
#[derive(Clone, Copy, Debug, Default, PartialEq, Eq)]
#[repr(C)]
pub struct Global;

/// An allocation failed.
#[derive(Clone, Copy, Debug, PartialEq, Eq)]
pub struct AllocError;

impl fmt::Display for AllocError {
    fn fmt(&self, f: &mut fmt::Formatter<'_>) -> fmt::Result {
        f.write_str("memory allocation failed")
    }
}

impl std::error::Error for AllocError {}

/// An allocation failed, and this could not be stored.
#[derive(Clone, Copy, Debug, PartialEq, Eq)]
pub struct AllocFailed<T> {
    pub value: T,
}

impl<T> From<AllocFailed<T>> for AllocError {
    fn from(_: AllocFailed<T>) -> AllocError {
        AllocError
    }
}

/// What allocates. There is one: [`Global`].
pub trait Allocator: Copy + Default {}

impl Allocator for Global {}

thread_local! {
    /// Whether the caller of the allocator hears that an allocation failed.
    static IS_HEARD: Cell<bool> = const { Cell::new(false) };
}

/// Calls what allocates and returns whether it could.
pub(crate) fn heard<T>(allocate: impl FnOnce() -> T) -> T {
    let before = IS_HEARD.with(|heard| heard.replace(true));
    let result = allocate();
    IS_HEARD.with(|heard| heard.set(before));
    result
}

/// The system's allocator, for a program. Where Rust's own library needs memory and there is none (it reads the words of
/// the command line, starts a thread), the process ends with status 1 behind this line on standard error, as it does where
/// a call of this crate returns [`AllocError`]. Rust would abort it.
pub struct ProgramAllocator(pub &'static str);

impl ProgramAllocator {
    fn told(&self, block: *mut u8) -> *mut u8 {
        if block.is_null() && !IS_HEARD.with(Cell::get) {
            use std::io::Write;
            let _ = crate::HostRuntime.stderr().write_all(self.0.as_bytes());
            end();
        }
        block
    }
}

/// Ends the process with status 1. What Rust's library does at an end may wait for what just lacked memory.
#[cfg(unix)]
fn end() -> ! {
    unsafe extern "C" {
        fn _exit(status: i32) -> !;
    }
    unsafe { _exit(1) }
}

#[cfg(not(unix))]
fn end() -> ! {
    std::process::exit(1)
}

// Each block is the system's.
unsafe impl GlobalAlloc for ProgramAllocator {
    unsafe fn alloc(&self, layout: Layout) -> *mut u8 {
        self.told(unsafe { System.alloc(layout) })
    }

    unsafe fn alloc_zeroed(&self, layout: Layout) -> *mut u8 {
        self.told(unsafe { System.alloc_zeroed(layout) })
    }

    unsafe fn dealloc(&self, block: *mut u8, layout: Layout) {
        unsafe { System.dealloc(block, layout) }
    }

    unsafe fn realloc(&self, block: *mut u8, layout: Layout, size: usize) -> *mut u8 {
        self.told(unsafe { System.realloc(block, layout, size) })
    }
}
