//! Clocks.

use crate::rt::HostRuntime;
use std::io;
use std::sync::Mutex;
use std::time::{Duration, Instant, SystemTime};

/// Tells the time.
pub trait Clock {
    /// The time since some start.
    fn monotonic(&self) -> io::Result<Duration>;

    fn since_1970(&self) -> io::Result<Duration>;

    /// What `thread::sleep` calls. A clock that leaves it out returns at once.
    fn sleep(&self, _duration: Duration) {}
}

impl Clock for HostRuntime {
    fn monotonic(&self) -> io::Result<Duration> {
        static START: Mutex<Option<Instant>> = Mutex::new(None);
        match START.lock() {
            Ok(mut start) => Ok(start.get_or_insert_with(Instant::now).elapsed()),
            Err(_) => Err(io::Error::from(io::ErrorKind::Other)),
        }
    }

    fn since_1970(&self) -> io::Result<Duration> {
        SystemTime::now().duration_since(SystemTime::UNIX_EPOCH).map_err(|error| io::Error::new(io::ErrorKind::Other, error))
    }

    fn sleep(&self, duration: Duration) {
        std::thread::sleep(duration);
    }
}

#[cfg(test)]
mod tests {
    use super::*;

    #[test]
    fn time_goes_on() {
        let first = HostRuntime.monotonic().unwrap();
        std::thread::sleep(Duration::from_millis(2));
        assert!(HostRuntime.monotonic().unwrap() >= first + Duration::from_millis(2));
    }
}
