//! The worked example of docs/FORMAT.md, to the byte.

use crate::common::worked_example;
use odht_ffi::{bytes_needed, empty_table, Builder, Error, Sizes, Table, TableMut, B16, B16U32, U64U32};

const PAIRS: [(u64, u32); 3] = [(1, 2), (3, 4), (5, 6)];

#[test]
fn inserts_make_the_bytes() {
    let mut bytes = vec![7; bytes_needed::<U64U32>(3, 95).unwrap()];
    let mut table = TableMut::<U64U32>::init(&mut bytes, 3, 95).unwrap();
    for (key, value) in PAIRS {
        assert_eq!(table.insert(&key, value), Ok(None));
    }
    assert_eq!(bytes, worked_example());
}

#[test]
fn a_list_of_inserts_makes_the_bytes() {
    let mut bytes = empty_table::<U64U32>(3, 95).unwrap();
    let (keys, values): (Vec<u64>, Vec<u32>) = PAIRS.into_iter().unzip();
    let answer = TableMut::<U64U32>::open(&mut bytes).unwrap().insert_all(&keys, &values);
    assert_eq!(answer, (3, Ok(())));
    assert_eq!(bytes, worked_example());
}

#[test]
fn a_build_makes_the_bytes() {
    let mut builder = Builder::<U64U32>::new(95);
    builder.extend(PAIRS);
    assert_eq!(builder.build().unwrap(), worked_example());
    assert_eq!(builder.bytes_needed(), Ok(256));
    let mut out = [9; 300];
    assert_eq!(builder.build_into(&mut out), Ok(256));
    assert_eq!(out[..256], worked_example());
    assert_eq!(out[256..], [9; 44]);
    assert_eq!(builder.build_into(&mut out[..255]), Err(Error::TooSmall));
}

#[test]
fn the_bytes_are_read() {
    let bytes = worked_example();
    let table = Table::<U64U32>::checked(&bytes).unwrap();
    assert_eq!(table.len(), 3);
    assert!(!table.is_empty());
    for (key, value) in PAIRS {
        assert_eq!(table.get(&key), Some(value));
        assert!(table.contains(&key));
    }
    assert_eq!(table.get(&7), None);
    assert_eq!(table.get_all(&[7, 5, 1]), [None, Some(6), Some(2)]);
    assert_eq!(table.bytes(), bytes);
}

#[test]
fn pairs_come_in_slot_order() {
    let bytes = worked_example();
    let table = Table::<U64U32>::open(&bytes).unwrap();
    assert_eq!(table.iter().collect::<Vec<_>>(), [(1, 2), (5, 6), (3, 4)]);
    // Each key is in its home, so every order of inserts makes the table.
    let mut order = table.insert_order().unwrap().unwrap();
    order.sort_unstable();
    assert_eq!(order, [5, 9, 15]);
}

#[test]
fn the_header_is_told() {
    let bytes = worked_example();
    // 62258 * 16 / 65536 is 15 and some; 62258 * 100 / 65535 is 94 and some.
    let sizes = Sizes { slots: 16, max_items: 15, percent: 94 };
    assert_eq!(Table::<U64U32>::open(&bytes).unwrap().sizes(), sizes);
}

/// The table in docs/FORMAT.md of the slots that this many items need at a percentage.
#[test]
fn lengths_follow_from_slots() {
    let lengths = [(0, 87, 16), (13, 87, 16), (14, 87, 32), (40, 87, 64), (3, 95, 16), (15, 100, 16), (16, 100, 32)];
    for (items, percent, slots) in lengths {
        assert_eq!(bytes_needed::<U64U32>(items, percent), Ok(32 + slots * 12 + slots + 16));
        assert_eq!(bytes_needed::<B16U32>(items, percent), Ok(32 + slots * 20 + slots + 16));
        assert_eq!(bytes_needed::<B16>(items, percent), Ok(32 + slots * 16 + slots + 16));
    }
}

/// Keys 15 and 47 have the home 15 in 16 and in 32 slots. In 16 slots, 15 is in slot 15 and 47 in slot 0, whose pair is
/// placed first: so in the grown table 47 is in slot 15 and 15 in slot 16.
#[test]
fn growth_places_pairs_in_slot_order() {
    let key = |number: u8| {
        let mut key = [0; 16];
        key[12] = number;
        key
    };
    let mut bytes = empty_table::<B16U32>(2, 13).unwrap();
    let mut table = TableMut::<B16U32>::open(&mut bytes).unwrap();
    assert_eq!(table.insert_all(&[key(15), key(47), key(3)], &[1, 2, 3]), (2, Err(Error::Full)));
    assert_eq!(table.as_table().iter().collect::<Vec<_>>(), [(key(47), 2), (key(15), 1)]);
    let mut larger = vec![1];
    let mut grown = table.grow_into(&mut larger).unwrap();
    assert_eq!(grown.as_table().sizes().slots, 32);
    assert_eq!(grown.as_table().insert_order(), Ok(Some(vec![15, 16])));
    assert_eq!(grown.insert(&key(3), 3), Ok(None));
    let pairs: Vec<_> = grown.into_table().iter().collect();
    assert_eq!(pairs, [(key(3), 3), (key(47), 2), (key(15), 1)]);
}

/// 16 slots at 1 percent have a maximum of 0. For one item 128 slots are needed: 128 * 655 / 65536 is 1 and some.
#[test]
fn a_table_for_no_items_grows() {
    let mut bytes = empty_table::<U64U32>(0, 1).unwrap();
    let mut table = TableMut::<U64U32>::open(&mut bytes).unwrap();
    assert_eq!(table.insert(&1, 2), Err(Error::Full));
    let sizes = Sizes { slots: 128, max_items: 1, percent: 0 };
    let grown = table.as_table().grown().unwrap();
    assert_eq!(Table::<U64U32>::open(&grown).unwrap().sizes(), sizes);
    assert_eq!(table.as_table().grown_len(), Ok(32 + 128 * 12 + 128 + 16));
    assert_eq!(odht_ffi::insert_growing::<U64U32>(&mut bytes, &1, 2), Ok(None));
    assert_eq!(odht_ffi::insert_growing::<U64U32>(&mut bytes, &1, 3), Ok(Some(2)));
    assert_eq!(Table::<U64U32>::checked(&bytes).unwrap().sizes(), sizes);
}

#[test]
fn the_version_is_that_of_the_package() {
    let parts = env!("CARGO_PKG_VERSION").split('.').map(|part| part.parse::<u32>().unwrap());
    assert_eq!(odht_ffi::version(), parts.fold(0, |version, part| 100 * version + part));
}
