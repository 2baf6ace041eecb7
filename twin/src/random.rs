//! Small random numbers for the comparisons; a seed gives the same ones again.

pub struct Random {
    state: u64,
}

/// Mixes a number's bits.
fn mixed(number: u64) -> u64 {
    let number = (number ^ (number >> 30)).wrapping_mul(0xBF58_476D_1CE4_E5B9);
    let number = (number ^ (number >> 27)).wrapping_mul(0x94D0_49BB_1331_11EB);
    number ^ (number >> 31)
}

impl Random {
    /// The numbers of one part of the work under a seed.
    pub fn new(seed: u64, part: u64) -> Random {
        Random { state: mixed(seed) ^ mixed(part.wrapping_add(0x632B_E59B_D9B4_E019)) }
    }

    pub fn number(&mut self) -> u64 {
        self.state = self.state.wrapping_add(0x9E37_79B9_7F4A_7C15);
        mixed(self.state)
    }

    /// A number below the limit, which is above zero.
    pub fn below(&mut self, limit: usize) -> usize {
        (self.number() % limit as u64) as usize
    }

    /// True in `part` of `whole` cases.
    pub fn chance(&mut self, part: usize, whole: usize) -> bool {
        self.below(whole) < part
    }

    pub fn pick<T: Copy>(&mut self, choices: &[T]) -> T {
        choices[self.below(choices.len())]
    }

    /// A byte with at least one bit set.
    pub fn some_bits(&mut self) -> u8 {
        if self.chance(1, 2) {
            1 << self.below(8)
        } else {
            self.below(255) as u8 + 1
        }
    }

    pub fn fill(&mut self, bytes: &mut [u8]) {
        for byte in bytes {
            *byte = self.number() as u8;
        }
    }
}
