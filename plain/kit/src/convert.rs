//! Texts of any kind, and numbers as places.

/// What has a text.
pub trait AsStr {
    fn as_str(&self) -> &str;
}

impl AsStr for &str {
    fn as_str(&self) -> &str {
        self
    }
}

impl<T: AsStr> AsStr for &T {
    fn as_str(&self) -> &str {
        (*self).as_str()
    }
}

/// A number as a place or a length. Where these have fewer bits, a number that is too great becomes the greatest.
pub fn place<N: TryInto<usize>>(number: N) -> usize {
    number.try_into().unwrap_or(usize::MAX)
}

#[cfg(test)]
mod tests {
    use super::*;

    #[test]
    fn a_number_too_great_is_the_greatest() {
        assert_eq!((place(7u8), place(7u64), place(1u128 << 64)), (7, 7, usize::MAX));
    }
}
