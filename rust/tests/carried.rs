//! The cases of the original's tests that public calls can say. Those of its group searches, probe sequences and raw
//! tables are in src/tests.

use crate::common::configs::{Plain, U32U32};
use crate::common::random::Random;
use odht::{bytes_needed, HashTable, HashTableOwned};
use std::collections::HashMap;

// Pairs of rising keys and falling values that begin and end with the least and the largest number. For one item the
// largest alone.
fn items(count: u32) -> Vec<(u32, u32)> {
    let Some(last) = count.checked_sub(1) else {
        return Vec::new();
    };
    let step = u32::MAX.checked_div(last).unwrap_or(0);
    let rising = (0..last).map(|at| (at * step, u32::MAX - at * step));
    rising.chain([(u32::MAX, 0)]).collect()
}

fn sorted(pairs: impl Iterator<Item = (u32, u32)>) -> Vec<(u32, u32)> {
    let mut pairs: Vec<_> = pairs.collect();
    pairs.sort_unstable();
    pairs
}

#[test]
fn collected_tables_have_their_items() {
    for count in 0..=32 {
        let items = items(count);
        let table = HashTableOwned::<U32U32>::from_iterator(items.clone(), 95);
        assert_eq!(table.len(), items.len());
        assert_eq!(sorted(table.iter()), items);
    }
}

#[test]
fn tables_are_made_in_place() {
    for count in 0..=32 {
        let items = items(count);
        let bytes = vec![0; bytes_needed::<U32U32>(items.len(), 87)];
        let made = HashTable::<U32U32, _>::init_in_place(bytes, items.len(), 87);
        let mut table = made.expect("the length fits");
        for (at, (key, value)) in items.iter().enumerate() {
            assert_eq!(table.len(), at);
            assert_eq!(table.insert(key, value), None);
            for (key, value) in &items[..=at] {
                assert_eq!(table.get(key), Some(*value));
            }
        }
        assert_eq!(table.len(), items.len());
        assert_eq!(sorted(table.iter()), items);
    }
}

#[test]
fn tables_are_read_at_each_alignment() {
    let items = items(33);
    let table = HashTableOwned::<U32U32>::from_iterator(items.clone(), 95);
    for before in 0..4 {
        let mut place = vec![0xff; before];
        place.extend(table.raw_bytes());
        let table = HashTable::<U32U32, _>::from_raw_bytes(&place[before..]).unwrap();
        assert_eq!(table.len(), items.len());
        for (key, value) in &items {
            assert_eq!(table.get(key), Some(*value));
        }
    }
}

#[test]
fn tables_grow() {
    let mut table = HashTableOwned::<U32U32>::with_capacity(10, 87);
    let items = items(100);
    for (key, value) in &items {
        assert_eq!(table.insert(key, value), None);
    }
    assert_eq!(sorted(table.iter()), items);
}

// The slots of that many items, by the length of a table without keys and values.
#[test]
fn items_need_these_slots() {
    let rows = [(0, 100, 16), (6, 60, 16), (5, 50, 16), (5, 49, 16), (1000, 100, 1024)];
    for (items, percent, slots) in rows {
        assert_eq!(bytes_needed::<Plain<0, 0>>(items, percent), 48 + slots);
    }
}

type Pairs<const K: usize, const V: usize> = Vec<([u8; K], [u8; V])>;

// Random pairs of which some have the same key. Keys of more than 64 bytes differ behind these alone, or in their last
// byte alone.
fn pairs<const K: usize, const V: usize>(random: &mut Random) -> Pairs<K, V> {
    let count = random.below(200);
    let same = if K > 64 { [64, K - 1][count % 2] } else { 0 };
    let key = |random: &mut Random| {
        let mut key = random.array::<K>();
        key[..same].fill(7);
        key
    };
    (0..count).map(|_| (key(random), random.array())).collect()
}

fn collected<const K: usize, const V: usize>(
    map: &HashMap<[u8; K], [u8; V]>,
) -> HashTableOwned<Plain<K, V>> {
    HashTableOwned::from_iterator(map.iter().map(|(key, value)| (*key, *value)), 87)
}

// The number of items, each item, and equal bytes of equal lists.
fn distinct_keys<const K: usize, const V: usize>(pairs: &Pairs<K, V>) {
    let map: HashMap<[u8; K], [u8; V]> = pairs.iter().copied().collect();
    let table = collected(&map);
    assert_eq!(table.len(), map.len());
    assert!(map.iter().all(|(key, value)| table.get(key) == Some(*value)));
    assert_eq!(table.raw_bytes(), collected(&map).raw_bytes());
}

// Each insert answers what a map's does.
fn repeated_keys<const K: usize, const V: usize>(pairs: &Pairs<K, V>) {
    let mut map = HashMap::new();
    let mut table = HashTableOwned::<Plain<K, V>>::default();
    for (key, value) in pairs {
        assert_eq!(table.insert(key, value), map.insert(*key, *value));
    }
}

// A list that is collected, and single inserts into a table of its length.
fn collected_and_inserted<const K: usize, const V: usize>(pairs: &Pairs<K, V>) {
    let mut inserted = HashTableOwned::<Plain<K, V>>::with_capacity(pairs.len(), 87);
    for (key, value) in pairs {
        inserted.insert(key, value);
    }
    let collected = HashTableOwned::<Plain<K, V>>::from_iterator(pairs.iter().copied(), 87);
    assert_eq!(inserted.raw_bytes(), collected.raw_bytes());
}

macro_rules! properties {
    ($($name:ident: $key:literal, $value:literal;)*) => {
        $(
            #[test]
            fn $name() {
                let mut random = Random($key * 1000 + $value);
                for _ in 0..40 {
                    let pairs = pairs::<$key, $value>(&mut random);
                    distinct_keys(&pairs);
                    repeated_keys(&pairs);
                    collected_and_inserted(&pairs);
                }
            }
        )*
    };
}

properties! {
    keys_of_0: 0, 0;
    keys_of_1: 1, 0;
    keys_of_2: 2, 0;
    keys_of_3: 3, 0;
    keys_of_4: 4, 0;
    keys_of_8: 8, 0;
    keys_of_15: 15, 0;
    keys_of_16: 16, 0;
    keys_of_17: 17, 0;
    keys_of_63: 63, 0;
    keys_of_64: 64, 0;
    keys_of_65: 65, 0;
    keys_of_128: 128, 0;
    keys_of_255: 255, 0;
    keys_of_2_and_values_of_4: 2, 4;
    keys_of_4_and_values_of_4: 4, 4;
    keys_of_8_and_values_of_4: 8, 4;
    keys_of_17_and_values_of_4: 17, 4;
    keys_of_20_and_values_of_4: 20, 4;
    keys_of_64_and_values_of_4: 64, 4;
    keys_of_65_and_values_of_4: 65, 4;
    keys_of_128_and_values_of_4: 128, 4;
    keys_of_255_and_values_of_4: 255, 4;
    keys_of_16_and_values_of_1: 16, 1;
    keys_of_16_and_values_of_2: 16, 2;
    keys_of_16_and_values_of_3: 16, 3;
    keys_of_16_and_values_of_4: 16, 4;
    keys_of_16_and_values_of_8: 16, 8;
    keys_of_16_and_values_of_16: 16, 16;
    keys_of_16_and_values_of_17: 16, 17;
}
