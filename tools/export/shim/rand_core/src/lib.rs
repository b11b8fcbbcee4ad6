//! `rand_core`, with what the toolchain's has in addition: the next output of a generator, at its own width.
#![no_std]
#![forbid(unsafe_code)]
pub use real::*;

/// What the toolchain's `rand_core` has in addition.
pub mod utils {
    use real::RngCore;

    /// A generator by its own outputs.
    pub trait NextWord {
        /// What it gives.
        type Word;
        /// The next output.
        fn next_word(&mut self) -> Self::Word;
    }

    impl NextWord for rand_pcg::Lcg64Xsh32 {
        type Word = u32;
        fn next_word(&mut self) -> u32 {
            self.next_u32()
        }
    }

    impl NextWord for rand_xoshiro::SplitMix64 {
        type Word = u64;
        fn next_word(&mut self) -> u64 {
            self.next_u64()
        }
    }
}

#[cfg(test)]
mod tests {
    use super::SeedableRng;
    use super::utils::NextWord;

    /// The first outputs that the authors of the generators publish: of PCG32 for state 42 and stream 54, of SplitMix64 for seed 1234567.
    #[test]
    fn outputs_are_those_of_the_authors() {
        let mut pcg = rand_pcg::Lcg64Xsh32::new(42, 54);
        assert_eq!([(); 6].map(|()| pcg.next_word()), [0xa15c_02b7, 0x7b47_f409, 0xba1d_3330, 0x83d2_f293, 0xbfa4_784b, 0xcbed_606e]);
        let mut mix = rand_xoshiro::SplitMix64::seed_from_u64(1_234_567);
        assert_eq!(mix.next_word(), 6_457_827_717_110_365_317);
    }
}
