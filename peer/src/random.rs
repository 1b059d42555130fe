//! Numbers from a seed, so that a random session can be made again.
//!
//! The algorithm is SplitMix64 (Steele, Lea and Flood, 2014): the state grows by 0x9e3779b97f4a7c15 modulo 2^64, and
//! each output is the new state z, mixed by z ^= z >> 30, z *= 0xbf58476d1ce4e5b9, z ^= z >> 27, z *=
//! 0x94d049bb133111eb, z ^= z >> 31. A choice among n is the output modulo n; how uneven that is does not matter here.

/// A source of numbers.
#[derive(Clone, Debug)]
pub struct Random {
    state: u64,
}

impl Random {
    /// The source that begins at this seed.
    pub fn from_seed(seed: u64) -> Random {
        Random { state: seed }
    }

    /// The next 64 bits.
    pub fn word(&mut self) -> u64 {
        self.state = self.state.wrapping_add(0x9e37_79b9_7f4a_7c15);
        let mut z = self.state;
        z = (z ^ (z >> 30)).wrapping_mul(0xbf58_476d_1ce4_e5b9);
        z = (z ^ (z >> 27)).wrapping_mul(0x94d0_49bb_1331_11eb);
        z ^ (z >> 31)
    }

    /// One of 0 to `count` - 1; `count` is above 0.
    pub fn below(&mut self, count: u64) -> u64 {
        self.word() % count
    }

    /// One of `first` to `last`.
    pub fn between(&mut self, first: u64, last: u64) -> u64 {
        first + self.below(last - first + 1)
    }

    /// An octet.
    pub fn octet(&mut self) -> u8 {
        self.below(256) as u8
    }

    /// Yes, once in `count` times.
    pub fn once_in(&mut self, count: u64) -> bool {
        self.below(count) == 0
    }

    /// One of these; there is at least one.
    pub fn pick<T: Copy>(&mut self, choices: &[T]) -> T {
        choices[self.below(choices.len() as u64) as usize]
    }

    /// One of these, each as often as its weight says; the weights' sum is above 0.
    pub fn weighted<T: Copy>(&mut self, choices: &[(u64, T)]) -> T {
        let mut left = self.below(choices.iter().map(|(weight, _)| weight).sum());
        for &(weight, choice) in choices {
            if left < weight {
                return choice;
            }
            left -= weight;
        }
        unreachable!("what is left is below the sum of the weights")
    }
}
