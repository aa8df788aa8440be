//! The generator PCG: after the crate `rand_pcg`.

use crate::rand_core::utils::NextWord;

/// PCG XSH RR 64/32: 64 bits of state, words of 32.
#[derive(Clone, Debug, PartialEq, Eq)]
pub struct Lcg64Xsh32 {
    state: u64,
    increment: u64,
}

pub type Pcg32 = Lcg64Xsh32;

impl Lcg64Xsh32 {
    /// The generator of a state and a stream.
    pub fn new(state: u64, stream: u64) -> Self {
        let increment = stream << 1 | 1;
        let mut generator = Lcg64Xsh32 {
            state: state.wrapping_add(increment),
            increment,
        };
        generator.step();
        generator
    }

    fn step(&mut self) {
        self.state = self
            .state
            .wrapping_mul(6_364_136_223_846_793_005)
            .wrapping_add(self.increment);
    }
}

impl NextWord<u32> for Lcg64Xsh32 {
    fn next_word(&mut self) -> u32 {
        let state = self.state;
        self.step();
        let mixed = (((state >> 18) ^ state) >> 27) as u32;
        mixed.rotate_right((state >> 59) as u32)
    }
}

#[cfg(test)]
mod tests {
    use super::*;

    /// The words of the generator's own demonstration.
    #[test]
    fn the_words_of_the_reference() {
        let mut generator = Pcg32::new(42, 54);
        let words: Vec<u32> = (0..6).map(|_| generator.next_word()).collect();
        assert_eq!(
            words,
            [
                0xa15c_02b7,
                0x7b47_f409,
                0xba1d_3330,
                0x83d2_f293,
                0xbfa4_784b,
                0xcbed_606e
            ]
        );
    }
}
