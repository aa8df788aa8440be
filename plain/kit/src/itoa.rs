//! Decimal digits: after the crate `itoa`.

/// Room for the digits of a number.
#[derive(Clone, Copy, Debug)]
pub struct Buffer {
    bytes: [u8; 20],
}

impl Default for Buffer {
    fn default() -> Self {
        Self::new()
    }
}

impl Buffer {
    #[inline]
    pub fn new() -> Buffer {
        Buffer { bytes: [0; 20] }
    }

    /// The digits of a number.
    #[inline]
    pub fn format<N: Into<u64>>(&mut self, number: N) -> &str {
        let mut rest = number.into();
        let mut at = self.bytes.len();
        loop {
            at -= 1;
            self.bytes[at] = b'0' + (rest % 10) as u8;
            rest /= 10;
            if rest == 0 {
                break;
            }
        }
        std::str::from_utf8(&self.bytes[at..]).unwrap_or_default()
    }
}
