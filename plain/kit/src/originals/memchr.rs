//! The crate `memchr`.

pub use ::memchr::{memchr, memmem, memrchr};
