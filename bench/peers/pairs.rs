//! What all peers store and look up.

use crate::keys::{value_of, Random};

/// How many keys are looked up in a round.
pub const LOOKUPS: usize = 1_000_000;

pub struct Pairs {
    pub keys: Vec<u64>,
    pub values: Vec<u32>,
    /// Keys of the table in random order, each as often as the others, or the first of that order.
    pub present: Vec<u64>,
    /// Keys that are not there.
    pub absent: Vec<u64>,
}

impl Pairs {
    pub fn new(count: usize) -> Pairs {
        let mut random = Random::from_fixed_seed();
        let keys: Vec<u64> = random.keys(count);
        let absent = random.keys(LOOKUPS);
        let mut shuffled = keys.clone();
        random.shuffle(&mut shuffled);
        Pairs {
            values: keys.iter().map(value_of).collect(),
            present: shuffled.iter().copied().cycle().take(LOOKUPS).collect(),
            keys,
            absent,
        }
    }

    /// What the values of the present keys add up to.
    pub fn sum(&self) -> u64 {
        self.present
            .iter()
            .map(|key| u64::from(value_of(key)))
            .sum()
    }

    /// Small tables are built and opened more often, since a single time says little.
    pub fn rounds(&self) -> usize {
        if self.keys.len() < 1_000_000 {
            5
        } else {
            1
        }
    }
}
