//! What is done with a map of the standard library is done with a table and with `HashMap`, and both are to hold the
//! same. The numbers of slots are worked out by hand: of 16 slots 87 percent are 16 * 57015 / 65536 = 13.9, of 32 they
//! are 27.8, of 64 they are 55.7; a table of 12 bytes an entry and s slots has 32 + 13 * s + 16 bytes.

use crate::common::worked::{changed, three_pairs};
use odht::configs::{DirectU32ToU32, U64ToU32};
use odht::{Error, HashTable, HashTableOwned};
use std::collections::HashMap;

type Owned = HashTableOwned<U64ToU32>;

fn len_of(slots: usize) -> usize {
    32 + 13 * slots + 16
}

// Each pair of the one is in the other, and there are as many.
fn assert_same(table: &Owned, map: &HashMap<u64, u32>) {
    assert_eq!(table.len(), map.len());
    assert!(map.iter().all(|(key, value)| table.get(key) == Some(*value)));
    assert_eq!(&table.iter().collect::<HashMap<_, _>>(), map);
}

// The lines are those that a user of `HashMap` writes; what differs is that keys and values are passed by reference.
#[test]
fn words_are_counted_as_with_a_map() {
    let text = "the cat and the dog and the bird";
    let number = |word: &str| word.bytes().fold(0, |n: u64, byte| n * 256 + u64::from(byte));
    let mut table = Owned::new();
    let mut map: HashMap<u64, u32> = HashMap::new();
    for word in text.split(' ').map(number) {
        *map.entry(word).or_insert(0) += 1;
        let count = table.get(&word).unwrap_or_default();
        table.insert(&word, &(count + 1));
        assert_same(&table, &map);
    }
    assert_eq!((table.get(&number("the")), table.get(&number("and"))), (Some(3), Some(2)));
    assert_eq!((table.len(), table.get(&number("cow"))), (5, None));
    for (word, first) in [("cow", 7), ("cat", 9)] {
        let word = number(word);
        let stored = *map.entry(word).or_insert_with(|| first);
        assert_eq!(table.get_or_insert_with(&word, || first), stored);
        assert_same(&table, &map);
    }
    map.extend([(1, 2), (number("cat"), 5), (1, 3)]);
    table.extend([(1, 2), (number("cat"), 5), (1, 3)]);
    assert_same(&table, &map);
    map.reserve(100);
    table.reserve(100);
    assert_same(&table, &map);
    assert!(table.capacity() >= table.len() + 100);
    map.clear();
    table.clear();
    assert_same(&table, &map);
}

#[test]
fn a_present_key_asks_for_no_value() {
    let mut table = Owned::from([(1, 2)]);
    assert_eq!(table.get_or_insert_with(&1, || unreachable!()), 2);
    let mut full: HashTableOwned<DirectU32ToU32> = (0..13).map(|key| (key, key + 100)).collect();
    let bytes = full.raw_bytes().to_vec();
    assert_eq!(full.get_or_insert_with(&12, || unreachable!()), 112);
    assert_eq!(full.raw_bytes(), bytes);
}

#[test]
fn room_is_made_once_and_only_where_it_lacks() {
    let mut table: Owned = (0..13).map(|key| (key, key as u32 + 100)).collect();
    let before = table.raw_bytes().to_vec();
    assert_eq!((table.len(), before.len()), (13, len_of(16)));
    table.reserve(0);
    assert_eq!(
        (table.raw_bytes(), table.raw_bytes().as_ptr()),
        (&before[..], table.as_ref().as_ptr())
    );
    for (additional, slots, capacity) in [(1, 32, 27), (14, 32, 27), (15, 64, 55), (42, 64, 55)] {
        let mut roomy = Owned::try_from_raw_bytes(&before).unwrap();
        assert_eq!(roomy.try_reserve(additional), Ok(()));
        assert_eq!((roomy.raw_bytes().len(), roomy.capacity()), (len_of(slots), capacity));
        assert!(roomy == table && !roomy.has_same_bytes(&table));
        // a growth to the slots for twice thirteen items leaves these bytes too
        let place = roomy.raw_bytes().as_ptr();
        (0..additional as u64).for_each(|key| assert_eq!(roomy.insert(&(key + 50), &0), None));
        assert_eq!((roomy.raw_bytes().as_ptr(), roomy.len()), (place, 13 + additional));
    }
    let mut grown = Owned::try_from_raw_bytes(&before).unwrap();
    grown.insert(&99, &1);
    let mut roomy = Owned::try_from_raw_bytes(&before).unwrap();
    roomy.reserve(13);
    roomy.insert(&99, &1);
    assert!(grown.has_same_bytes(&roomy));
}

#[test]
fn room_that_cannot_be_made_changes_nothing() {
    let mut table = Owned::from([(1, 2), (3, 4)]);
    let bytes = table.raw_bytes().to_vec();
    for (additional, error) in [
        (usize::MAX, Error::Capacity),
        (usize::MAX - 1, Error::Capacity),
        (1 << 62, Error::Capacity),
        (1 << 50, Error::Memory),
    ] {
        assert_eq!(table.try_reserve(additional), Err(error));
        assert_eq!(table.raw_bytes(), bytes);
    }
    assert!(std::panic::catch_unwind(move || table.reserve(usize::MAX)).is_err());
}

#[test]
fn an_emptied_table_is_a_new_one() {
    let mut table: Owned = (0..40).map(|key| (key, 1)).collect();
    let place = table.raw_bytes().as_ptr();
    table.clear();
    assert_eq!((table.len(), table.iter().count(), table.get(&7)), (0, 0, None));
    assert_eq!(table.raw_bytes().as_ptr(), place);
    assert_eq!(table.raw_bytes(), Owned::with_capacity(40, 87).raw_bytes());
    let mut worked = Owned::try_from_raw_bytes(&three_pairs()).unwrap();
    worked.clear();
    // header with the count 0 and 95 percent, zeros, and the control bytes of free slots
    let mut free = three_pairs()[..32].to_vec();
    free[8] = 0;
    free.extend([0; 192]);
    free.extend([255; 32]);
    assert_eq!(worked.raw_bytes(), free);
}

#[test]
fn equal_tables_are_the_same_map() {
    let pairs = [(1, 2), (3, 4), (5, 6)];
    let table = Owned::from(pairs);
    let mut other = Owned::with_capacity(1000, 30);
    for (at, (key, value)) in pairs.into_iter().rev().enumerate() {
        assert!(table != other, "{at} of the pairs");
        assert!(other != table, "{at} of the pairs");
        other.insert(&key, &value);
    }
    assert!(table == other && !table.has_same_bytes(&other));
    assert!(other == table);
    for (key, value) in [(1, 9), (7, 2)] {
        let mut changed = other.clone();
        changed.insert(&key, &value);
        assert!(table != changed);
        assert!(changed != table);
    }
    // as many pairs, of which one has another key
    assert!(table != Owned::from([(1, 2), (3, 4), (7, 6)]));
    assert!(Owned::from([(1, 2), (3, 4), (7, 6)]) != table);
    assert!(Owned::new() == Owned::with_capacity(50, 10));
    assert!(Owned::new() != table);
}

#[test]
fn views_are_compared_as_maps_and_as_bytes() {
    let bytes = three_pairs();
    let view = HashTable::<U64ToU32, _>::try_from_raw_bytes(&bytes[..]).unwrap();
    let wide = Owned::from_iterator([(5, 6), (3, 4), (1, 2)], 20).into_raw_bytes();
    let wide = HashTable::<U64ToU32, _>::try_from_raw_bytes(wide).unwrap();
    assert!(view.is_same_map(&wide) && wide.is_same_map(&view));
    assert!(!view.has_same_bytes(&wide) && view.has_same_bytes(&view));
    // another value of the key in slot 5, whose entry begins at 32 + 5 * 12
    let other = changed(&bytes, &[(32 + 60 + 8, 3)]);
    let other = HashTable::<U64ToU32, _>::try_from_raw_bytes(other).unwrap();
    assert!(!view.is_same_map(&other) && !other.is_same_map(&view) && !other.has_same_bytes(&view));
}
