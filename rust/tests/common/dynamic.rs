//! A dynamic table, beside the second reading of its bytes.

use super::orders::first_order;
use super::random::Random;
use super::reading::{Format, Reading};
use odht::dynamic::{DynTable, Layout};
use odht::HashFn;

/// So many bytes, which look random.
pub fn some_bytes(random: &mut Random, len: usize) -> Vec<u8> {
    (0..len).map(|_| random.byte()).collect()
}

// How many groups the search for a key reads.
fn groups_of(reading: &Reading<'_>, key: &[u8]) -> usize {
    let order = reading.format.order_of(key, reading.slots());
    let end = reading.search_end(key);
    let passed = order.take_while(|slot| Some(*slot) != end).count();
    (passed / 16 + 1).min(reading.slots() / 16)
}

// Compares what the calls with a bound of searches say with the second reading.
fn bound_is_kept<H: HashFn>(table: &DynTable<H, &[u8]>, reading: &Reading<'_>, groups: usize) {
    let expected = reading.error_within(&reading.check_error(), groups);
    let found = table.check_rest_within(groups).err().map(|error| error.to_string());
    assert_eq!(found, expected);
    assert_eq!(table.verify_within(groups), expected.is_none());
    assert_eq!(table.searches_within(groups), reading.first_longer(groups).is_none());
}

/// Compares the orders of inserts that are found of a valid table with the first search. Returns whether there is one.
pub fn orders_are_found<H: HashFn>(table: &DynTable<H, &[u8]>, reading: &Reading<'_>) -> bool {
    let mut expected = vec![0; reading.count()];
    let is_made = first_order(reading, &mut expected);
    let mut found = vec![usize::MAX; reading.count()];
    assert_eq!(table.insert_order(&mut found), is_made);
    assert_eq!(found, expected);
    let numbers = table.insert_order_scratch();
    assert_eq!(numbers, 3 * reading.slots());
    for numbers in [numbers, numbers + 1, numbers - 1] {
        let mut found = vec![usize::MAX; reading.count()];
        assert_eq!(table.insert_order_with(&mut found, &mut vec![usize::MAX; numbers]), is_made);
        assert!(!is_made || found == expected);
    }
    assert!(!is_made || reading.is_insert_order(&expected));
    is_made
}

/// Compares each call with the second reading.
pub fn compare<H: HashFn>(table: &DynTable<H, &[u8]>, reading: &Reading<'_>, random: &mut Random) {
    let Format { key, value, .. } = reading.format;
    assert_eq!(table.layout(), Layout { key_len: key as u8, value_len: value as u8 });
    assert_eq!((table.len(), table.is_empty()), (reading.count(), reading.count() == 0));
    assert_eq!(table.raw_bytes(), reading.bytes);
    assert_eq!(table.check_rest().err().map(|error| error.to_string()), reading.check_error());
    assert!(orders_are_found(table, reading));
    for groups in [0, 1, 2, random.below(reading.slots() / 16 + 2)] {
        bound_is_kept(table, reading, groups);
    }
    let pair = |slot| (slot, (reading.key(slot), reading.value(slot)));
    let walk: Vec<_> = reading.occupied().map(pair).collect();
    assert!(table.iter().eq(walk.iter().map(|(_, pair)| *pair)));
    let from = random.below(reading.slots() + 4);
    assert!(table.iter_from(from).eq(walk.iter().copied().filter(|(slot, _)| *slot >= from)));
    for (_, (key, value)) in walk {
        assert_eq!(table.get_counted(key), (Some(value), groups_of(reading, key)));
        assert!(table.contains_key(key));
        assert_eq!(table.get(&[key, &[0]].concat()), None);
        assert_eq!(
            table.get_counted(&key[..key.len().saturating_sub(1)]).0.is_some(),
            key.is_empty()
        );
    }
    for _ in 0..8 {
        let key = some_bytes(random, key);
        let there = reading.search_end(&key).filter(|slot| reading.is_occupied(*slot));
        let value = there.map(|slot| reading.value(slot));
        assert_eq!(table.get_counted(&key), (value, groups_of(reading, &key)));
        assert_eq!((table.get(&key), table.contains_key(&key)), (value, value.is_some()));
    }
}
