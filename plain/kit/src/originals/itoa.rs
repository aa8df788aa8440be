//! The crate `itoa`.

pub use ::itoa::Buffer;
