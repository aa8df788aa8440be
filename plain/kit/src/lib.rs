//! The types of Rattle's library that the sources of this repository use, on Rust's `std`.
//!
//! In Rattle an allocation may fail, and code that allocates, prints, waits or starts threads is handed something for
//! it: an allocator or the runtime. Here the allocator is a value without bytes, and the runtime is [`HostRuntime`].
//! Nothing of this crate is proved: each module has tests of what its callers rely on.
//!
//! With the feature `crates-io` the crates `arrayvec`, `byteorder`, `hex`, `itoa` and `memchr` are those of crates.io, and
//! not the modules after them. A workspace has the feature if it was written with `plain_rust.sh --crates-io`.

pub mod alloc;
#[cfg_attr(feature = "crates-io", path = "originals/arrayvec.rs")]
pub mod arrayvec;
pub mod atomic_table;
pub mod boxed;
#[cfg_attr(feature = "crates-io", path = "originals/byteorder.rs")]
pub mod byteorder;
pub mod c;
pub mod clap;
pub mod collections;
pub mod convert;
pub mod crossbeam_queue;
pub mod env;
pub mod fs;
#[cfg_attr(feature = "crates-io", path = "originals/hex.rs")]
pub mod hex;
pub mod io;
#[cfg_attr(feature = "crates-io", path = "originals/itoa.rs")]
pub mod itoa;
mod macros;
pub mod marker;
#[cfg_attr(feature = "crates-io", path = "originals/memchr.rs")]
pub mod memchr;
pub mod process;
pub mod rand_core;
pub mod rand_pcg;
pub mod rt;
pub mod snapshot;
pub mod string;
pub mod sync;
pub mod test;
pub mod thread;
pub mod time;
pub mod vec;

pub use boxed::Box;
pub use rt::HostRuntime;
pub use string::String;
pub use vec::Vec;
