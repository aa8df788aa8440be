//! Files.

use std::io;
use std::io::{Read, Write};

/// What is known of a file.
pub fn metadata<R>(_: &R, path: &str) -> io::Result<std::fs::Metadata> {
    std::fs::metadata(path)
}

/// An open file.
#[derive(Debug)]
pub struct File {
    inner: std::fs::File,
}

impl File {
    /// Opens a file to be read.
    pub fn open<R>(_: &R, path: &str) -> io::Result<File> {
        Ok(File {
            inner: std::fs::File::open(path)?,
        })
    }

    /// Makes a file, or empties the one that is there, to be written.
    pub fn create<R>(_: &R, path: &str) -> io::Result<File> {
        Ok(File {
            inner: std::fs::File::create(path)?,
        })
    }
}

/// What the call returns that no signal interrupts.
fn again<R>(mut call: impl FnMut() -> io::Result<R>) -> io::Result<R> {
    loop {
        match call() {
            Err(error) if error.kind() == io::ErrorKind::Interrupted => {}
            done => return done,
        }
    }
}

impl Read for File {
    /// A read that a signal interrupts is made again, as one of standard input is.
    fn read(&mut self, buffer: &mut [u8]) -> io::Result<usize> {
        again(|| self.inner.read(buffer))
    }
}

impl Write for File {
    fn write(&mut self, bytes: &[u8]) -> io::Result<usize> {
        again(|| self.inner.write(bytes))
    }

    fn flush(&mut self) -> io::Result<()> {
        self.inner.flush()
    }
}

#[cfg(test)]
mod tests {
    use super::*;
    use crate::rt::HostRuntime;

    #[test]
    fn an_interrupted_call_is_made_again() {
        let mut left = 2;
        let done = again(|| {
            left -= 1;
            if left > 0 { Err(io::ErrorKind::Interrupted.into()) } else { Ok(7) }
        });
        assert_eq!((done.unwrap(), left), (7, 0));
        assert!(again(|| Err::<(), _>(io::ErrorKind::NotFound.into())).is_err());
    }

    #[test]
    fn a_file_that_is_not_there_is_an_error() {
        let name = std::env::temp_dir().join(format!("kit-{}", std::process::id()));
        let name = name.to_str().unwrap();
        File::create(&HostRuntime, name).unwrap().write_all(b"a").unwrap();
        let mut text = std::string::String::new();
        File::open(&HostRuntime, name).unwrap().read_to_string(&mut text).unwrap();
        assert_eq!(text, "a");
        std::fs::remove_file(name).unwrap();
        assert_eq!(File::open(&HostRuntime, name).unwrap_err().kind(), io::ErrorKind::NotFound);
    }
}
