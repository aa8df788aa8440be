//! Digits of bytes: after the crate `hex`.

use crate::alloc::{AllocError, Allocator};
use crate::string::String;

/// Why digits are no bytes.
#[derive(Clone, Copy, Debug, PartialEq, Eq)]
pub enum FromHexError {
    InvalidHexCharacter { c: char, index: usize },
    OddLength,
    InvalidStringLength,
}

fn value(digits: &[u8], index: usize) -> Result<u8, FromHexError> {
    match digits[index] {
        c @ b'0'..=b'9' => Ok(c - b'0'),
        c @ b'a'..=b'f' => Ok(c - b'a' + 10),
        c @ b'A'..=b'F' => Ok(c - b'A' + 10),
        c => Err(FromHexError::InvalidHexCharacter { c: c as char, index }),
    }
}

/// The bytes of as many digits as fill them.
pub fn decode_to_slice<T: AsRef<[u8]>>(digits: T, bytes: &mut [u8]) -> Result<(), FromHexError> {
    let digits = digits.as_ref();
    if digits.len() % 2 != 0 {
        return Err(FromHexError::OddLength);
    }
    if digits.len() / 2 != bytes.len() {
        return Err(FromHexError::InvalidStringLength);
    }
    for (at, byte) in bytes.iter_mut().enumerate() {
        *byte = value(digits, 2 * at)? << 4 | value(digits, 2 * at + 1)?;
    }
    Ok(())
}

/// The digits of bytes, which fill the room for them.
pub fn encode_to_slice<T: AsRef<[u8]>>(bytes: T, digits: &mut [u8]) -> Result<(), FromHexError> {
    let bytes = bytes.as_ref();
    if digits.len() != 2 * bytes.len() {
        return Err(FromHexError::InvalidStringLength);
    }
    for (byte, pair) in bytes.iter().zip(digits.chunks_exact_mut(2)) {
        pair[0] = b"0123456789abcdef"[usize::from(byte >> 4)];
        pair[1] = b"0123456789abcdef"[usize::from(byte & 15)];
    }
    Ok(())
}

/// The digits of bytes as text.
pub fn encode<A: Allocator, T: AsRef<[u8]>>(_: A, bytes: T) -> Result<String, AllocError> {
    let mut text = String::new(crate::alloc::Global);
    for byte in bytes.as_ref() {
        text.write_fmt(format_args!("{byte:02x}"))?;
    }
    Ok(text)
}
