//! Tables of 2^20 slots, from which on a list of inserts looks at eight keys ahead.

use crate::common::random::Random;
use odht::configs::U64ToU32;
use odht::{bytes_needed, Error, HashTable, HashTableOwned};
use std::collections::HashMap;

// So many pairs, of a third as many keys.
fn pairs(count: usize) -> Vec<(u64, u32)> {
    let mut random = Random(9);
    let keys: Vec<u64> = (0..count / 3).map(|_| random.number()).collect();
    (0..count).map(|_| (keys[random.below(keys.len())], random.number() as u32)).collect()
}

const SLOTS: usize = 1 << 20;

#[test]
fn a_list_is_single_inserts() {
    let pairs = pairs(150_003);
    // 2^20 slots hold 912,240 items at 87 percent.
    let place = vec![0x33; bytes_needed::<U64ToU32>(900_000, 87)];
    assert_eq!(place.len(), 48 + SLOTS * 13);
    let mut list = HashTable::<U64ToU32, _>::init_in_place(place, 900_000, 87).unwrap();
    assert_eq!(list.try_insert_all(&pairs), (150_003, Ok(())));
    let (mut single, mut map) =
        (HashTableOwned::<U64ToU32>::with_capacity(900_000, 87), HashMap::new());
    for (key, value) in &pairs {
        assert_eq!(single.insert(key, value), map.insert(*key, *value));
    }
    assert!(single.raw_bytes() == list.raw_bytes());
    assert_eq!((list.len(), list.check_all()), (map.len(), Ok(())));
    let keys: Vec<u64> = pairs.iter().flat_map(|(key, _)| [*key, !*key]).collect();
    let mut values = vec![None; keys.len()];
    list.get_all(&keys, &mut values);
    assert!(keys.iter().zip(&values).all(|(key, value)| map.get(key) == value.as_ref()));
}

// At one percent 2^20 slots hold 10,480 items.
#[test]
fn a_list_ends_at_the_maximum() {
    let place = vec![0; bytes_needed::<U64ToU32>(10_480, 1)];
    assert_eq!(place.len(), 48 + SLOTS * 13);
    let mut view = HashTable::<U64ToU32, _>::init_in_place(place, 10_480, 1).unwrap();
    let pairs: Vec<(u64, u32)> = (0..10_500).map(|key| (key, key as u32)).collect();
    assert_eq!(view.try_insert_all(&pairs), (10_480, Err(Error::Full)));
    assert_eq!(view.len(), 10_480);
    let present: Vec<(u64, u32)> = (0..100).map(|key| (key, 7)).collect();
    assert_eq!(view.try_insert_all(&present), (100, Ok(())));
    assert_eq!((view.get(&99), view.get(&100), view.len()), (Some(7), Some(100), 10_480));
    let mut owned = HashTableOwned::<U64ToU32>::with_capacity(10_480, 1);
    assert_eq!(owned.try_insert_all(&pairs), (10_500, Ok(())));
    assert_eq!(owned.raw_bytes().len(), 48 + 2 * SLOTS * 13);
    assert!(pairs.iter().all(|(key, value)| owned.get(key) == Some(*value)));
}
