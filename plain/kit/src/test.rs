//! Tests that end with a result.

use crate::alloc::AllocError;
use std::fmt::Debug;

pub use crate::rt::HostRuntime;

/// Why a test failed.
pub struct Fail {
    why: std::string::String,
}

impl<E: Debug> From<E> for Fail {
    fn from(error: E) -> Fail {
        Fail {
            why: format!("{error:?}"),
        }
    }
}

/// How a test may end.
pub trait Outcome {
    /// Why it failed, if it did.
    fn failure(self) -> Option<std::string::String>;
}

impl Outcome for () {
    fn failure(self) -> Option<std::string::String> {
        None
    }
}

impl Outcome for Result<(), Fail> {
    fn failure(self) -> Option<std::string::String> {
        self.err().map(|fail| fail.why)
    }
}

impl Outcome for Result<(), AllocError> {
    fn failure(self) -> Option<std::string::String> {
        self.err().map(|error| format!("{error:?}"))
    }
}

impl Outcome for std::io::Result<()> {
    fn failure(self) -> Option<std::string::String> {
        self.err().map(|error| format!("{error:?}"))
    }
}

/// Ends a test.
pub fn finish(outcome: impl Outcome) {
    if let Some(why) = outcome.failure() {
        panic!("{why}");
    }
}

#[cfg(test)]
mod tests {
    use super::*;

    #[test]
    fn an_error_fails_a_test() {
        let fails = || -> Result<(), Fail> { Err(AllocError)? };
        assert_eq!(fails().failure().as_deref(), Some("AllocError"));
        finish(Ok::<(), Fail>(()));
    }
}
