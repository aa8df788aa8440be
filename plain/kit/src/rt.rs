//! The runtime.

use crate::alloc::{Allocator, Global};
use std::fmt;
use std::io;
use std::io::{Read, Write};

/// What stands for the system: it has no bytes.
#[derive(Clone, Copy, Debug, Default)]
pub struct HostRuntime;

impl HostRuntime {
    pub fn new() -> HostRuntime {
        HostRuntime
    }

    /// The allocator.
    pub fn alloc(&self) -> Global {
        Global
    }

    pub fn stdin(&self) -> Stream<0> {
        Stream
    }

    pub fn stdout(&self) -> Stream<1> {
        Stream
    }

    pub fn stderr(&self) -> Stream<2> {
        Stream
    }
}

/// Which standard streams were closed when the process began. Rust's runtime opens the null device in their place before
/// `main`, so this looks before that.
#[cfg(unix)]
mod closed {
    use std::io;
    use std::sync::atomic::{AtomicU8, Ordering};

    /// A bit for each stream.
    static CLOSED: AtomicU8 = AtomicU8::new(0);
    const F_GETFD: i32 = 1;
    const EBADF: i32 = 9;

    unsafe extern "C" {
        fn fcntl(file: i32, command: i32, ...) -> i32;
    }

    extern "C" fn look() {
        for stream in 0..3 {
            if unsafe { fcntl(stream, F_GETFD) } == -1 {
                CLOSED.fetch_or(1 << stream, Ordering::Relaxed);
            }
        }
    }

    #[used]
    #[cfg_attr(target_vendor = "apple", unsafe(link_section = "__DATA,__mod_init_func"))]
    #[cfg_attr(not(target_vendor = "apple"), unsafe(link_section = ".init_array"))]
    static LOOK: extern "C" fn() = look;

    /// The error of a stream that was closed.
    #[inline]
    pub fn open(stream: i32) -> io::Result<()> {
        if CLOSED.load(Ordering::Relaxed) & 1 << stream == 0 {
            return Ok(());
        }
        Err(io::Error::from_raw_os_error(EBADF))
    }
}

/// A stream of the process, without a buffer: each call is one of the system's. One that was closed when the process began
/// is an error.
#[derive(Clone, Copy, Debug)]
pub struct Stream<const N: i32>;

#[cfg(unix)]
impl<const N: i32> Stream<N> {
    fn with<R>(&self, call: impl FnOnce(&mut std::fs::File) -> io::Result<R>) -> io::Result<R> {
        use std::os::fd::FromRawFd;
        closed::open(N)?;
        // The file isn't closed, since it isn't dropped.
        let mut file = std::mem::ManuallyDrop::new(unsafe { std::fs::File::from_raw_fd(N) });
        call(&mut file)
    }
}

#[cfg(unix)]
impl<const N: i32> Read for Stream<N> {
    fn read(&mut self, buffer: &mut [u8]) -> io::Result<usize> {
        self.with(|file| {
            loop {
                match file.read(buffer) {
                    Err(error) if error.kind() == io::ErrorKind::Interrupted => {}
                    done => return done,
                }
            }
        })
    }
}

#[cfg(unix)]
impl<const N: i32> Write for Stream<N> {
    fn write(&mut self, bytes: &[u8]) -> io::Result<usize> {
        self.with(|file| {
            loop {
                match file.write(bytes) {
                    Err(error) if error.kind() == io::ErrorKind::Interrupted => {}
                    done => return done,
                }
            }
        })
    }

    fn flush(&mut self) -> io::Result<()> {
        Ok(())
    }
}

#[cfg(not(unix))]
impl<const N: i32> Read for Stream<N> {
    fn read(&mut self, buffer: &mut [u8]) -> io::Result<usize> {
        io::stdin().read(buffer)
    }
}

#[cfg(not(unix))]
impl<const N: i32> Write for Stream<N> {
    fn write(&mut self, bytes: &[u8]) -> io::Result<usize> {
        if N == 1 {
            io::stdout().write(bytes)
        } else {
            io::stderr().write(bytes)
        }
    }

    fn flush(&mut self) -> io::Result<()> {
        if N == 1 {
            io::stdout().flush()
        } else {
            io::stderr().flush()
        }
    }
}

impl<const N: i32> crate::io::IsTerminal for Stream<N> {
    #[cfg(not(target_arch = "wasm32"))]
    fn is_terminal(&self) -> bool {
        use std::io::IsTerminal;
        match N {
            0 => io::stdin().is_terminal(),
            1 => io::stdout().is_terminal(),
            _ => io::stderr().is_terminal(),
        }
    }

    #[cfg(target_arch = "wasm32")]
    fn is_terminal(&self) -> bool {
        false
    }
}

/// What has an allocator.
pub trait Alloc {
    type A: Allocator;

    fn alloc(&self) -> Self::A;
}

impl Alloc for HostRuntime {
    type A = Global;

    fn alloc(&self) -> Global {
        Global
    }
}

/// What has the process's allocator.
pub trait AllocGlobal: Alloc<A = Global> {}

impl<T: Alloc<A = Global>> AllocGlobal for T {}

/// What prints to standard output.
pub trait Print {
    fn print(&self, said: impl fmt::Display) -> io::Result<()>;

    fn println(&self, said: impl fmt::Display) -> io::Result<()> {
        self.print(format_args!("{said}\n"))
    }
}

impl Print for HostRuntime {
    fn print(&self, said: impl fmt::Display) -> io::Result<()> {
        write!(self.stdout(), "{said}")
    }
}

impl<T: Print> Print for &T {
    fn print(&self, said: impl fmt::Display) -> io::Result<()> {
        (*self).print(said)
    }
}

/// What prints to standard error.
pub trait Eprint {
    fn eprint(&self, said: impl fmt::Display) -> io::Result<()>;

    fn eprintln(&self, said: impl fmt::Display) -> io::Result<()> {
        self.eprint(format_args!("{said}\n"))
    }
}

impl Eprint for HostRuntime {
    fn eprint(&self, said: impl fmt::Display) -> io::Result<()> {
        write!(self.stderr(), "{said}")
    }
}

/// What reads standard input.
pub trait Input {
    fn reader(&self) -> io::BufReader<Stream<0>>;
}

impl Input for HostRuntime {
    fn reader(&self) -> io::BufReader<Stream<0>> {
        io::BufReader::new(self.stdin())
    }
}
