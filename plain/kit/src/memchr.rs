//! Looking for bytes: after the crate `memchr`.

const LOW: u64 = 0x0101_0101_0101_0101;
const HIGH: u64 = 0x8080_8080_8080_8080;

/// Where the first such byte is. Looks at 8 bytes at a time.
#[inline]
pub fn memchr(byte: u8, bytes: &[u8]) -> Option<usize> {
    let all = LOW * u64::from(byte);
    let mut at = 0;
    while let Some(eight) = bytes.get(at..at + 8) {
        let mut word = [0; 8];
        word.copy_from_slice(eight);
        let differ = u64::from_le_bytes(word) ^ all;
        let equal = differ.wrapping_sub(LOW) & !differ & HIGH;
        if equal != 0 {
            return Some(at + equal.trailing_zeros() as usize / 8);
        }
        at += 8;
    }
    bytes[at..].iter().position(|b| *b == byte).map(|more| at + more)
}

/// Where the last such byte is.
pub fn memrchr(byte: u8, bytes: &[u8]) -> Option<usize> {
    bytes.iter().rposition(|b| *b == byte)
}

/// Looking for texts.
pub mod memmem {
    /// Where the first such text begins.
    pub fn find(bytes: &[u8], text: &[u8]) -> Option<usize> {
        if text.is_empty() {
            return Some(0);
        }
        bytes.windows(text.len()).position(|window| window == text)
    }
}
