//! Text that grows.

use crate::alloc::{AllocError, Global};
use crate::convert::AsStr;
use crate::vec::Vec;
use std::fmt;
use std::fmt::Write;

/// Text that grows. A call that needs memory says whether it got it.
#[derive(Clone, PartialEq, Eq, PartialOrd, Ord, Hash)]
pub struct String {
    bytes: Vec<u8>,
}

impl String {
    /// An empty text. Takes no memory.
    pub fn new(alloc: Global) -> String {
        String { bytes: Vec::new(alloc) }
    }

    pub fn with_capacity(alloc: Global, count: usize) -> Result<String, AllocError> {
        Ok(String {
            bytes: Vec::with_capacity(alloc, count)?,
        })
    }

    pub fn from_str(alloc: Global, text: &str) -> Result<String, AllocError> {
        let mut all = String::new(alloc);
        all.push_str(text)?;
        Ok(all)
    }

    /// What a format prints.
    pub fn of_format(alloc: Global, format: fmt::Arguments<'_>) -> Result<String, AllocError> {
        let mut all = String::new(alloc);
        all.write_fmt(format)?;
        Ok(all)
    }

    #[inline]
    pub fn push_str(&mut self, text: &str) -> Result<(), AllocError> {
        self.bytes.extend_from_slice(text.as_bytes())
    }

    pub fn push(&mut self, glyph: char) -> Result<(), AllocError> {
        self.push_str(glyph.encode_utf8(&mut [0; 4]))
    }

    /// Adds what a format prints.
    pub fn write_fmt(&mut self, format: fmt::Arguments<'_>) -> Result<(), AllocError> {
        struct Adding<'a>(&'a mut String);
        impl fmt::Write for Adding<'_> {
            fn write_str(&mut self, text: &str) -> fmt::Result {
                self.0.push_str(text).map_err(|_| fmt::Error)
            }
        }
        Adding(self).write_fmt(format).map_err(|_| AllocError)
    }

    #[inline]
    pub fn as_str(&self) -> &str {
        std::str::from_utf8(&self.bytes).unwrap_or_default()
    }

    #[inline]
    pub fn as_bytes(&self) -> &[u8] {
        &self.bytes
    }

    pub fn into_bytes(self) -> Vec<u8> {
        self.bytes
    }

    #[inline]
    pub fn len(&self) -> usize {
        self.bytes.len()
    }

    #[inline]
    pub fn is_empty(&self) -> bool {
        self.bytes.is_empty()
    }

    pub fn clear(&mut self) {
        self.bytes.clear();
    }
}

impl AsStr for String {
    fn as_str(&self) -> &str {
        String::as_str(self)
    }
}

impl fmt::Display for String {
    fn fmt(&self, f: &mut fmt::Formatter<'_>) -> fmt::Result {
        fmt::Display::fmt(self.as_str(), f)
    }
}

impl fmt::Debug for String {
    fn fmt(&self, f: &mut fmt::Formatter<'_>) -> fmt::Result {
        fmt::Debug::fmt(self.as_str(), f)
    }
}

#[cfg(test)]
mod tests {
    use super::*;

    #[test]
    fn text_grows() {
        let mut text = String::from_str(Global, "a").unwrap();
        text.push('é').unwrap();
        text.write_fmt(format_args!("{:02x}", 10)).unwrap();
        assert_eq!(text.as_str(), "aé0a");
        assert_eq!(text.into_bytes().as_slice(), "aé0a".as_bytes());
    }
}
