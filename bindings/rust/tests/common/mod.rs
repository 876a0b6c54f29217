//! What the tests share: random numbers, and the bytes of the worked example of docs/FORMAT.md.

#![allow(dead_code)]

/// splitmix64.
pub struct Random(pub u64);

impl Random {
    pub fn next(&mut self) -> u64 {
        self.0 = self.0.wrapping_add(0x9e37_79b9_7f4a_7c15);
        let mixed = (self.0 ^ (self.0 >> 30)).wrapping_mul(0xbf58_476d_1ce4_e5b9);
        let mixed = (mixed ^ (mixed >> 27)).wrapping_mul(0x94d0_49bb_1331_11eb);
        mixed ^ (mixed >> 31)
    }

    pub fn below(&mut self, bound: usize) -> usize {
        (self.next() % bound as u64) as usize
    }
}

/// Random keys and values.
pub trait Chance {
    fn by_chance(random: &mut Random) -> Self;
}

impl Chance for () {
    fn by_chance(_: &mut Random) {}
}

impl Chance for u32 {
    fn by_chance(random: &mut Random) -> u32 {
        random.next() as u32
    }
}

impl Chance for u64 {
    fn by_chance(random: &mut Random) -> u64 {
        random.next()
    }
}

impl<const N: usize> Chance for [u8; N] {
    fn by_chance(random: &mut Random) -> [u8; N] {
        std::array::from_fn(|_| random.next() as u8)
    }
}

/// The table of the worked example: 1 to 2, 3 to 4 and 5 to 6, made for 3 items at 95 percent, from keys of 64 bits to
/// values of 32 bits. The bytes are those that docs/FORMAT.md derives by hand.
pub fn worked_example() -> Vec<u8> {
    let mut bytes = vec![0; 256];
    bytes[..8].copy_from_slice(&[0x4f, 0x44, 0x48, 0x54, 1, 8, 4, 0x20]);
    bytes[8] = 3;
    bytes[16] = 16;
    bytes[24..32].copy_from_slice(&[0, 0, 0, 2, 0x32, 0xf3, 0, 0]);
    (bytes[92], bytes[100]) = (1, 2);
    (bytes[140], bytes[148]) = (5, 6);
    (bytes[212], bytes[220]) = (3, 4);
    bytes[224..].fill(255);
    for mirror in [0, 16] {
        (bytes[229 + mirror], bytes[233 + mirror], bytes[239 + mirror]) = (0x13, 0x61, 0x3a);
    }
    bytes
}

/// The worked example with some bytes changed: each with its index.
pub fn changed(changes: &[(usize, u8)]) -> Vec<u8> {
    let mut bytes = worked_example();
    for (index, byte) in changes {
        bytes[*index] = *byte;
    }
    bytes
}
