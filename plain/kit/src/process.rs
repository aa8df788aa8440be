//! The process.

/// What may end the process. A call of Rattle's `assert!` takes one; here it panics.
pub trait Abort {}

impl Abort for crate::rt::HostRuntime {}

impl<T: Abort> Abort for &T {}
