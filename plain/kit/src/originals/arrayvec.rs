//! The crate `arrayvec`.

use crate::convert::AsStr;

pub use ::arrayvec::{ArrayString, ArrayVec, CapacityError};

impl<const N: usize> AsStr for ArrayString<N> {
    fn as_str(&self) -> &str {
        ArrayString::as_str(self)
    }
}
