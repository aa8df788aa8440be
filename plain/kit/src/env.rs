//! The words of the command line.

use crate::alloc::{AllocError, Global};
use crate::io;
use crate::rt::HostRuntime;
use crate::string::String;
use crate::vec::Vec;

/// Why a word doesn't fill a buffer.
#[derive(Clone, Copy, Debug, PartialEq, Eq)]
pub enum FillError {
    NotPresent,
    TooLong,
}

/// The words of the command line as bytes.
pub trait Env {
    /// Copies a word to the start of a buffer, and gives its length.
    fn arg(&self, place: usize, buffer: &mut [u8]) -> Result<usize, FillError>;
}

impl Env for HostRuntime {
    fn arg(&self, place: usize, buffer: &mut [u8]) -> Result<usize, FillError> {
        let word = std::env::args_os().nth(place).ok_or(FillError::NotPresent)?;
        let bytes = bytes_of(&word);
        let room = buffer.get_mut(..bytes.len()).ok_or(FillError::TooLong)?;
        room.copy_from_slice(bytes);
        Ok(bytes.len())
    }
}

#[cfg(unix)]
fn bytes_of(word: &std::ffi::OsStr) -> &[u8] {
    use std::os::unix::ffi::OsStrExt;
    word.as_bytes()
}

/// The bytes of a word that is text.
#[cfg(not(unix))]
fn bytes_of(word: &std::ffi::OsStr) -> &[u8] {
    word.to_str().unwrap_or_default().as_bytes()
}

/// The words of the command line, the program's name before them.
pub struct Args {
    words: std::vec::Vec<std::string::String>,
}

/// The words of the command line. Fails if one isn't text.
pub fn args<R>(_: &R) -> io::Result<Args> {
    let mut words = std::vec::Vec::new();
    for word in std::env::args_os() {
        match word.into_string() {
            Ok(word) => words.push(word),
            Err(_) => return Err(io::ErrorKind::InvalidData.into()),
        }
    }
    Ok(Args { words })
}

impl Args {
    pub fn collect(self, alloc: Global) -> Result<Vec<String>, AllocError> {
        let mut all = Vec::with_capacity(alloc, self.words.len())?;
        for word in &self.words {
            all.push_reserved(String::from_str(alloc, word)?);
        }
        Ok(all)
    }
}
