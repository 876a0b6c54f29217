//! Calls of a map that cost little, beside `HashMap`: tables from vectors and to vectors, walks that own the table,
//! `get_or_insert`, `extend` by reference, `==` of views, and tables that give memory back.
//!
//! A table of 12 bytes an entry and `s` slots has 32 + 13 * s + 16 bytes. Of 16 slots 87 percent are 13, of 32 they are
//! 27, of 64 they are 55.

use crate::common::reading::{Format, Hash};
use crate::common::worked::{changed, three_pairs};
use crate::common::writing::{factor_of, Writing};
use odht::configs::U64ToU32;
use odht::{bytes_needed, Error, HashTable, HashTableOwned};
use std::collections::{BTreeSet, HashMap};

type Owned = HashTableOwned<U64ToU32>;
type View<'b> = HashTable<U64ToU32, &'b [u8]>;

const PAIRS: [(u64, u32); 3] = [(1, 2), (3, 4), (5, 6)];

fn len_of(slots: usize) -> usize {
    32 + 13 * slots + 16
}

#[test]
fn tables_come_from_vectors_and_bytes() {
    let items: Vec<(u64, u32)> = vec![(1, 7), (3, 4), (5, 6), (1, 2)];
    let (table, map) = (Owned::from(items.clone()), HashMap::<u64, u32>::from_iter(items.clone()));
    assert_eq!(table.iter().collect::<HashMap<_, _>>(), map);
    assert!(table.has_same_bytes(&items.into_iter().collect()));
    assert_eq!(Owned::from(Vec::new()).raw_bytes(), Owned::with_capacity(0, 87).raw_bytes());
    let many = Owned::from((0..14).map(|key| (key, 0)).collect::<Vec<_>>());
    assert_eq!((many.len(), many.raw_bytes().len()), (14, len_of(32)));

    let bytes = three_pairs();
    let view = View::try_from(&bytes[..]).unwrap();
    assert_eq!((view.get(&3), view.raw_bytes().as_ptr()), (Some(4), bytes.as_ptr()));
    let copy = Owned::try_from(&bytes[..]).unwrap();
    let place = copy.raw_bytes().as_ptr();
    assert_eq!((copy.get(&3), place == bytes.as_ptr()), (Some(4), false));
    let taken: Vec<u8> = copy.into();
    assert_eq!((taken.as_ptr(), &taken), (place, &bytes));
}

// The last byte is in the mirror: opening does not look at it, and the whole check does.
#[test]
fn a_copy_of_a_slice_is_checked_whole() {
    let spoiled = changed(&three_pairs(), &[(255, 0)]);
    assert!(View::try_from(&spoiled[..]).is_ok());
    let error = Owned::try_from(&spoiled[..]).unwrap_err();
    assert_eq!(error, Error::MirrorMismatch { index: 15 });
    assert_eq!(View::try_from(&b"no table"[..]).unwrap_err(), Error::TooShort { found: 8 });
}

#[test]
fn a_table_is_taken_apart() {
    let table = Owned::from(PAIRS);
    let (keys, values) = (table.clone().into_keys(), table.clone().into_values());
    assert_eq!((keys.len(), values.len(), values.size_hint()), (3, 3, (3, Some(3))));
    assert!(keys.clone().eq(table.keys()) && values.clone().eq(table.values()));
    assert_eq!(keys.collect::<BTreeSet<_>>(), [1, 3, 5].into());
    assert_eq!(values.collect::<BTreeSet<_>>(), [2, 4, 6].into());
    // of sixteen slots thirteen are occupied, so some are neighbours
    let dense: Owned = (0..13).map(|key| (key, key as u32)).collect();
    assert!(dense.as_view().into_keys().eq(dense.keys()));
    assert!(dense.as_view().into_values().eq(dense.values()));
    let view = table.as_view();
    let (mut keys, mut values) = (view.into_keys(), view.into_values());
    for left in [2, 1, 0] {
        assert!(keys.next().is_some() && values.next().is_some());
        assert_eq!((keys.len(), values.len()), (left, left));
    }
    assert_eq!((keys.next(), keys.next(), values.next(), values.len()), (None, None, None, 0));
    assert_eq!(format!("{keys:?} {values:?}"), "IntoKeys { .. } IntoValues { .. }");
}

#[test]
fn a_view_of_an_owned_table_reads_its_bytes() {
    fn value_of(table: View<'_>, key: u64) -> Option<u32> {
        table.get(&key)
    }
    let mut table = Owned::from(PAIRS);
    assert_eq!(table.as_view().raw_bytes().as_ptr(), table.raw_bytes().as_ptr());
    assert_eq!((value_of(table.as_view(), 5), value_of(table.as_view(), 6)), (Some(6), None));
    table.extend((10..100).map(|key| (key, 1)));
    assert_eq!((table.as_view().len(), value_of(table.as_view(), 99)), (93, Some(1)));
}

#[test]
fn a_value_is_stored_for_a_new_key() {
    let (mut table, mut map) = (Owned::new(), HashMap::new());
    for (key, value) in [(1, 2), (3, 4), (1, 9), (1, 5), (3, 3)] {
        let stored: u32 = *map.entry(key).or_insert(value);
        assert_eq!(table.get_or_insert(&key, value), stored);
        assert_eq!(table.try_get_or_insert(&key, value + 1), Ok(stored));
    }
    assert_eq!(table.iter().collect::<HashMap<_, _>>(), map);
}

#[test]
fn items_are_taken_by_reference() {
    let items: Vec<(u64, u32)> = (0..40).map(|key| (key % 30, key as u32)).collect();
    let (mut by_reference, mut by_value) = (Owned::new(), Owned::new());
    by_reference.extend(&items);
    by_value.extend(items.iter().copied());
    assert!(by_reference.len() == 30 && by_reference.has_same_bytes(&by_value));
    by_reference.extend(items.iter().filter(|(key, _)| *key == 7));
    assert_eq!(by_reference.get(&7), Some(37));
}

#[test]
fn views_are_equal_as_maps() {
    let one = Owned::from(PAIRS);
    let other = Owned::from_iterator([(5, 6), (3, 4), (1, 2)], 20);
    assert!(one.as_view() == other.as_view() && other.as_view() == one.as_view());
    let own = HashTable::<U64ToU32, Vec<u8>>::try_from_raw_bytes(other.raw_bytes().to_vec());
    assert!(one.as_view() == own.unwrap());
    for pairs in [&[(1, 2), (3, 4)][..], &[(1, 2), (3, 4), (5, 7)], &[(1, 2), (3, 4), (7, 6)], &[]]
    {
        let other = Owned::from(pairs.to_vec());
        assert!(one.as_view() != other.as_view() && other.as_view() != one.as_view());
    }
}

// Of bytes that are no table's a view is equal to none: not to the table that they were, nor to itself.
#[test]
fn a_view_of_other_bytes_is_equal_to_none() {
    let bytes = three_pairs();
    // in the mirror; in the entry and in the control byte of slot 11, which is free, and opening does not look at it
    for change in [(255, 0), (32 + 11 * 12, 1), (224 + 11, 0x12)] {
        let spoiled = changed(&bytes, &[change]);
        let table = View::try_from(&bytes[..]).unwrap();
        let view = View::try_from(&spoiled[..]).unwrap();
        let (of_table, of_itself) = (is_equal(&view, &table), is_equal(&view, &view));
        assert_eq!((of_table, is_equal(&table, &view), of_itself), (false, false, false));
        assert!(is_equal(&table, &table));
    }
}

fn is_equal(one: &View<'_>, other: &View<'_>) -> bool {
    one == other
}

// The second writing of the pairs of a table, in slot order, into this number of slots.
fn placed_again(table: &Owned, slots: usize) -> Vec<u8> {
    let format = Format::new(8, 4, Hash::Fx);
    let mut written = Writing::with_slots(format, slots, factor_of(87));
    for (key, value) in table {
        written.put(&key.to_le_bytes(), &value.to_le_bytes()).expect("there is room");
    }
    written.bytes
}

#[test]
fn memory_that_is_not_needed_is_given_back() {
    for (count, slots) in [(0, 16), (1, 16), (13, 16), (14, 32), (27, 32), (28, 64), (55, 64)] {
        let mut table: Owned = (0..count).map(|key| (key * 3, key as u32)).collect();
        assert_eq!(table.raw_bytes().len(), len_of(slots));
        let fitting = table.clone();
        table.reserve(1000);
        let roomy = table.clone();
        assert_eq!(table.raw_bytes().len(), len_of(2048));
        table.shrink_to_fit();
        assert!(table == fitting && table.raw_bytes() == placed_again(&roomy, slots), "{count}");
        let place = table.raw_bytes().as_ptr();
        assert_eq!((table.try_shrink_to_fit(), table.raw_bytes().as_ptr()), (Ok(()), place));
        assert_eq!(table.capacity(), [13, 27, 55][slots.trailing_zeros() as usize - 4]);
        table.insert(&1, &1);
        assert!(table.len() == count as usize + 1 && table.as_view().verify());
    }
}

// The load factor stays: of 64 slots 10 percent are 6, of 16 they are 1.
#[test]
fn a_shrunk_table_has_its_load_factor() {
    let mut table = Owned::from_iterator([(1, 2)], 10);
    table.reserve(100);
    table.shrink_to_fit();
    assert_eq!(table.raw_bytes().len(), bytes_needed::<U64ToU32>(1, 10));
    assert_eq!((table.capacity(), table.get(&1)), (1, Some(2)));
}
