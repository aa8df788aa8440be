//! The crate `hex`, but for [`encode`], which is handed an allocator here.

use crate::alloc::{AllocError, Allocator, Global};
use crate::string::String;

pub use ::hex::{FromHexError, decode_to_slice, encode_to_slice};

/// The digits of bytes as text.
pub fn encode<A: Allocator, T: AsRef<[u8]>>(_: A, bytes: T) -> Result<String, AllocError> {
    String::from_str(Global, &::hex::encode(bytes))
}
