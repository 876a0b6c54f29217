//! The jobs by the standard library's `HashMap`, with its own hash function and with that of the
//! tables.

use std::collections::HashMap;
use std::hash::{BuildHasher, Hasher, RandomState};
use std::hint::black_box;
use std::mem::take;

use crate::keys::Key;
use crate::work::Work;

/// The hash function of tables of numbers. The map takes the place of a key from the low bits and
/// its tag from the high ones; the product varies most in its high bits, so it is rotated, as the
/// crate `rustc-hash` does.
#[derive(Default)]
pub struct FxHasher(u64);

impl Hasher for FxHasher {
    #[inline]
    fn write_u64(&mut self, key: u64) {
        self.0 = self.0.wrapping_add(key).wrapping_mul(0x517c_c1b7_2722_0a95);
    }

    fn write(&mut self, _: &[u8]) {
        unreachable!("all keys are numbers of 64 bits");
    }

    #[inline]
    fn finish(&self) -> u64 {
        self.0.rotate_left(26)
    }
}

/// The hash function of tables of 16 bytes, which takes the last bytes as they are. Here these are
/// eight and not four, since a map needs both ends of 64 bits.
#[derive(Default)]
pub struct LastBytesHasher(u64);

impl Hasher for LastBytesHasher {
    #[inline]
    fn write(&mut self, key: &[u8]) {
        let last = key.last_chunk().expect("all keys have 16 bytes");
        self.0 = u64::from_le_bytes(*last);
    }

    /// The length of the key comes before it.
    #[inline]
    fn write_usize(&mut self, _: usize) {}

    #[inline]
    fn finish(&self) -> u64 {
        self.0
    }
}

macro_rules! build_hasher {
    ($build:ident, $hasher:ident) => {
        #[derive(Default)]
        pub struct $build;

        impl BuildHasher for $build {
            type Hasher = $hasher;

            #[inline]
            fn build_hasher(&self) -> $hasher {
                $hasher::default()
            }
        }
    };
}

build_hasher!(FxBuild, FxHasher);
build_hasher!(LastBytesBuild, LastBytesHasher);

pub type Map<K, S> = HashMap<K, u32, S>;

/// Which of the two maps a job works on. A job takes it out, and puts it back at its end.
pub trait Which<K: Key> {
    type Hash: BuildHasher + Default;

    fn of(work: &mut Work<K>) -> &mut Map<K, Self::Hash>;
}

/// The map with the hash function of the standard library.
pub struct Own;

/// The map with the hash function of the tables.
pub struct AsTable;

impl<K: Key> Which<K> for Own {
    type Hash = RandomState;

    fn of(work: &mut Work<K>) -> &mut Map<K, RandomState> {
        &mut work.own_map
    }
}

impl<K: Key> Which<K> for AsTable {
    type Hash = K::TableHash;

    fn of(work: &mut Work<K>) -> &mut Map<K, K::TableHash> {
        &mut work.table_map
    }
}

/// The map was made before, as the buffer of the tables was.
pub fn insert_presized<K: Key, W: Which<K>>(work: &mut Work<K>) {
    let mut map = take(W::of(work));
    map.clear();
    for (key, value) in work.keys.iter().zip(&work.values) {
        map.insert(*key, *value);
    }
    assert_eq!(map.len(), work.keys.len());
    *W::of(work) = map;
}

pub fn get<K: Key, W: Which<K>>(work: &mut Work<K>) {
    let map = take(W::of(work));
    work.answers
        .write_each(&work.queries, |key| map.get(key).copied());
    *W::of(work) = map;
}

pub fn walk<K: Key, W: Which<K>>(work: &mut Work<K>) {
    let map = take(W::of(work));
    let pairs = map.iter().map(|(key, value)| (*key, *value));
    work.answers.write_pairs(pairs);
    *W::of(work) = map;
}

pub fn insert_growing<K: Key, W: Which<K>>(work: &mut Work<K>) {
    let mut map: Map<K, W::Hash> = HashMap::default();
    for (key, value) in work.keys.iter().zip(&work.values) {
        map.insert(*key, *value);
    }
    assert_eq!(black_box(&map).len(), work.keys.len());
}

pub fn from_iterator<K: Key, W: Which<K>>(work: &mut Work<K>) {
    let pairs = work.keys.iter().copied().zip(work.values.iter().copied());
    let map: Map<K, W::Hash> = pairs.collect();
    assert_eq!(black_box(&map).len(), work.keys.len());
}
