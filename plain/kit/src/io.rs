//! Readers and writers: Rust's, and what takes an allocator or the runtime in Rattle.

use crate::alloc::{AllocError, AllocFailed};

pub use std::io::{BufRead, Cursor, Error, ErrorKind, Read, Result, Write, empty, sink};

impl From<AllocError> for Error {
    fn from(_: AllocError) -> Error {
        ErrorKind::OutOfMemory.into()
    }
}

impl<T> From<AllocFailed<T>> for Error {
    fn from(_: AllocFailed<T>) -> Error {
        ErrorKind::OutOfMemory.into()
    }
}

/// What may be a terminal.
pub trait IsTerminal {
    fn is_terminal(&self) -> bool;
}
