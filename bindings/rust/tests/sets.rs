//! Sets: tables without values.

use std::collections::HashSet;

use crate::common::{Chance, Random};
use odht_ffi::{Builder, Error, Shape, Table, TableMut, B16, B32};

fn set<S: Shape<Value = ()>>()
where
    S::Key: Chance,
{
    let random = &mut Random(5);
    let keys: Vec<S::Key> = (0..300).map(|_| S::Key::by_chance(random)).collect();
    let mut bytes = odht_ffi::empty_table::<S>(200, 87).unwrap();
    let mut table = TableMut::<S>::open(&mut bytes).unwrap();
    let mut others = HashSet::new();
    for key in keys[..100].iter().chain(&keys[50..150]) {
        assert_eq!(table.add(key), Ok(others.insert(*key)));
    }
    // 256 slots take 256 * 57015 / 65536 = 222 items and some.
    assert_eq!(table.add_all(&keys), (222, Err(Error::Full)));
    let table = table.into_table();
    assert_eq!(table.keys().collect::<HashSet<_>>(), keys[..222].iter().copied().collect());
    let expected: Vec<bool> = (0..300).map(|place| place < 222).collect();
    assert_eq!(table.contains_all(&keys), expected);
    assert_eq!(table.get(&keys[0]), Some(()));
    assert_eq!(Table::<S>::checked(&bytes).unwrap().len(), 222);
}

#[test]
fn b16() {
    set::<B16>();
}

#[test]
fn b32() {
    set::<B32>();
}

/// 16 slots of 16 bytes: the last four bytes of a key are its hash, lowest first, and so its slot.
#[test]
fn the_bytes_of_a_set() {
    let mut builder = Builder::<B16>::new(87);
    let key = [9, 9, 9, 9, 9, 9, 9, 9, 9, 9, 9, 9, 3, 0, 0, 0xfe];
    builder.add(key);
    builder.add_all([key, key]);
    let mut expected = vec![0; 32 + 16 * 16 + 16 + 16];
    expected[..8].copy_from_slice(&[0x4f, 0x44, 0x48, 0x54, 1, 16, 0, 32]);
    (expected[8], expected[16], expected[27]) = (1, 16, 2);
    (expected[28], expected[29]) = (0xb7, 0xde);
    expected[32 + 3 * 16..][..16].copy_from_slice(&key);
    expected[288..].fill(255);
    (expected[288 + 3], expected[304 + 3]) = (0x7f, 0x7f);
    assert_eq!(builder.build().unwrap(), expected);
    assert_eq!(builder.build_growing().unwrap(), expected);
}
