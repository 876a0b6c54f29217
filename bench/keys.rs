//! The two kinds of keys, and the random numbers that they are made of.

use std::hash::{BuildHasher, Hash};

use crate::maps::{FxBuild, LastBytesBuild};

/// splitmix64. Each step has another state and gives another number, so no number comes twice.
pub struct Random(u64);

impl Random {
    /// All runs work on the same keys.
    pub fn from_fixed_seed() -> Random {
        Random(7)
    }

    fn next(&mut self) -> u64 {
        self.0 = self.0.wrapping_add(0x9e37_79b9_7f4a_7c15);
        let mixed = (self.0 ^ (self.0 >> 30)).wrapping_mul(0xbf58_476d_1ce4_e5b9);
        let mixed = (mixed ^ (mixed >> 27)).wrapping_mul(0x94d0_49bb_1331_11eb);
        mixed ^ (mixed >> 31)
    }

    pub fn keys<K: Key>(&mut self, count: usize) -> Vec<K> {
        (0..count).map(|_| K::random(self)).collect()
    }

    pub fn shuffle<K>(&mut self, keys: &mut [K]) {
        for last in (1..keys.len()).rev() {
            let other = self.next() % (last as u64 + 1);
            keys.swap(last, other as usize);
        }
    }
}

/// A kind of key, with what is measured beside its tables.
pub trait Key: Copy + Default + Eq + Hash {
    /// The hash function of the tables, for the second map.
    type TableHash: BuildHasher + Default;
    /// How the columns of the two maps are headed.
    const MAPS: [&'static str; 2];
    /// What is in an array before a checked run. No table has it.
    const SCRUB: Self;

    fn random(random: &mut Random) -> Self;

    /// Two keys of one table have different numbers, as far as chance allows.
    fn number(&self) -> u64;
}

impl Key for u64 {
    type TableHash = FxBuild;
    const MAPS: [&'static str; 2] = ["HashMap", "HashMap, Fx"];
    const SCRUB: u64 = 0xa5;

    fn random(random: &mut Random) -> u64 {
        random.next()
    }

    fn number(&self) -> u64 {
        *self
    }
}

impl Key for [u8; 16] {
    type TableHash = LastBytesBuild;
    const MAPS: [&'static str; 2] = ["HashMap", "HashMap, UnHash"];
    const SCRUB: [u8; 16] = [0xa5; 16];

    fn random(random: &mut Random) -> [u8; 16] {
        let (low, high) = (random.next(), random.next());
        (u128::from(low) | u128::from(high) << 64).to_le_bytes()
    }

    fn number(&self) -> u64 {
        let both = u128::from_le_bytes(*self);
        both as u64 ^ (both >> 64) as u64
    }
}

/// The value of each key, so that every answer can be checked by itself.
pub fn value_of(key: &impl Key) -> u32 {
    let number = key.number();
    (number >> 32) as u32 ^ number as u32
}
