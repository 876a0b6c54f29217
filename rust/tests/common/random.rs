//! Random numbers, the same in each run.

/// The generator splitmix64.
pub struct Random(pub u64);

impl Random {
    /// The next number.
    pub fn number(&mut self) -> u64 {
        self.0 = self.0.wrapping_add(0x9e37_79b9_7f4a_7c15);
        let mixed = (self.0 ^ (self.0 >> 30)).wrapping_mul(0xbf58_476d_1ce4_e5b9);
        let mixed = (mixed ^ (mixed >> 27)).wrapping_mul(0x94d0_49bb_1331_11eb);
        mixed ^ (mixed >> 31)
    }

    /// A number below the bound.
    pub fn below(&mut self, bound: usize) -> usize {
        (self.number() % bound as u64) as usize
    }

    /// A byte.
    pub fn byte(&mut self) -> u8 {
        self.number() as u8
    }

    /// Whether something with this chance in a hundred comes.
    pub fn comes(&mut self, percent: usize) -> bool {
        self.below(100) < percent
    }

    /// An array of bytes. In one of four only the first byte is not zero, so that arrays are met again.
    pub fn array<const N: usize>(&mut self) -> [u8; N] {
        let is_small = self.comes(25);
        std::array::from_fn(|at| if is_small && at > 0 { 0 } else { self.byte() })
    }
}
