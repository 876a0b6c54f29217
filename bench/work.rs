//! What all contenders work on: the pairs, the table's bytes, the arrays for answers, and the maps.

use std::collections::HashMap;
use std::hash::RandomState;

use crate::keys::{value_of, Key, Random};
use crate::maps::Map;
use crate::ours::Calls;
use crate::pages::LargePages;

pub const PERCENT: u8 = 87;

/// What is in a number or byte before a checked run, so that answers of another run do not
/// count.
const SCRUB: u8 = 0xa5;

/// What lookups and walks write.
#[derive(Clone, Default, PartialEq)]
pub struct Answers<K> {
    pub keys: Vec<K>,
    pub values: Vec<u32>,
    pub found: Vec<u8>,
}

impl<K: Copy> Answers<K> {
    /// The answer to each query, as `get_all` writes them.
    #[inline(always)]
    pub fn write_each(&mut self, queries: &[K], mut get: impl FnMut(&K) -> Option<u32>) {
        let places = self.values.iter_mut().zip(&mut self.found);
        for (key, (value, found)) in queries.iter().zip(places) {
            match get(key) {
                Some(there) => {
                    *value = there;
                    *found = 1;
                }
                None => *found = 0,
            }
        }
    }

    /// The pairs of a walk.
    #[inline(always)]
    pub fn write_pairs(&mut self, pairs: impl Iterator<Item = (K, u32)>) {
        let places = self.keys.iter_mut().zip(&mut self.values);
        for ((key, value), pair) in places.zip(pairs) {
            (*key, *value) = pair;
        }
    }
}

/// Which of the places a measure's jobs write.
#[derive(Clone, Copy, PartialEq)]
pub enum Written {
    Table,
    Answers,
    Nothing,
}

pub struct Work<K: Key> {
    random: Random,
    pub keys: Vec<K>,
    pub values: Vec<u32>,
    /// The keys that are looked up.
    pub queries: Vec<K>,
    /// The bytes of the table: inserts write them, lookups, walks and opens read them.
    pub table: Vec<u8>,
    /// A copy of the table in large pages.
    pub large: Option<LargePages>,
    /// The bytes of a second table, for jobs that make one of the first.
    pub spare: Vec<u8>,
    /// The slots in an order of inserts that makes the table.
    pub order: Vec<usize>,
    pub answers: Answers<K>,
    pub own_map: Map<K, RandomState>,
    pub table_map: Map<K, K::TableHash>,
}

impl<K: Calls> Work<K> {
    /// The places are written once, so that no timed job is the first to touch them.
    pub fn new(count: usize) -> Work<K> {
        let mut random = Random::from_fixed_seed();
        let keys: Vec<K> = random.keys(count);
        Work {
            random,
            values: keys.iter().map(value_of).collect(),
            keys,
            queries: Vec::new(),
            table: vec![SCRUB; K::bytes_needed(count)],
            large: None,
            spare: Vec::new(),
            order: Vec::new(),
            answers: Answers {
                keys: vec![K::SCRUB; count],
                values: vec![SCRUB.into(); count],
                found: vec![SCRUB; count],
            },
            own_map: HashMap::default(),
            table_map: HashMap::default(),
        }
    }
}

impl<K: Key> Work<K> {
    pub fn make_maps(&mut self) {
        self.own_map.reserve(self.keys.len());
        self.table_map.reserve(self.keys.len());
    }

    /// The next lookups are of all keys, in another order.
    pub fn ask_for_keys(&mut self) {
        self.queries = self.keys.clone();
        self.random.shuffle(&mut self.queries);
    }

    /// The next lookups are of as many keys that are not there.
    pub fn ask_for_absent_keys(&mut self) {
        self.queries = self.random.keys(self.keys.len());
    }

    pub fn copy_to_large_pages(&mut self) {
        self.large = Some(LargePages::of(&self.table));
    }

    pub fn drop_queries(&mut self) {
        self.queries = Vec::new();
    }

    pub fn drop_answers_and_maps(&mut self) {
        self.answers = Answers::default();
        self.own_map = HashMap::default();
        self.table_map = HashMap::default();
    }

    pub fn make_room_for_order(&mut self) {
        self.order = vec![usize::MAX; self.keys.len()];
    }

    pub fn scrub(&mut self, written: Written) {
        match written {
            Written::Table => self.table.fill(SCRUB),
            Written::Answers => {
                self.answers.keys.fill(K::SCRUB);
                self.answers.values.fill(SCRUB.into());
                self.answers.found.fill(SCRUB);
            }
            Written::Nothing => {}
        }
    }

    /// A copy of what was written, to compare another contender's with.
    pub fn copy(&self, written: Written) -> (Vec<u8>, Answers<K>) {
        match written {
            Written::Table => (self.table.clone(), Answers::default()),
            Written::Answers => (Vec::new(), self.answers.clone()),
            Written::Nothing => (Vec::new(), Answers::default()),
        }
    }

    pub fn check_hits(&self) {
        let mut values = self.queries.iter().zip(&self.answers.values);
        assert!(self.answers.found.iter().all(|found| *found == 1));
        assert!(values.all(|(key, value)| value_of(key) == *value));
    }

    pub fn check_misses(&self) {
        let mut values = self.answers.values.iter();
        assert!(self.answers.found.iter().all(|found| *found == 0));
        assert!(values.all(|value| *value == SCRUB.into()));
    }

    /// The walked keys are those of the table, as far as their sum says, with their values.
    pub fn check_walk(&self) {
        let sum = |keys: &[K]| {
            keys.iter()
                .fold(0, |sum: u64, key| sum.wrapping_add(key.number()))
        };
        let mut pairs = self.answers.keys.iter().zip(&self.answers.values);
        assert_eq!(sum(&self.keys), sum(&self.answers.keys));
        assert!(pairs.all(|(key, value)| value_of(key) == *value));
    }
}
