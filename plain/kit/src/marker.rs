//! Types that only proofs read.

/// A type that stands for what a proof picks.
#[derive(Clone, Copy, Debug)]
pub enum Brand {}
