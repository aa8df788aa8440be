//! What random numbers come from: after the crate `rand_core`.

pub mod utils {
    /// A generator of words.
    pub trait NextWord<W> {
        fn next_word(&mut self) -> W;
    }
}
