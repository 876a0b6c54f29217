//! The owned dynamic table: each length of keys with values of several lengths beside a map of the
//! standard library; and the same bytes as a table of a configuration under the same inserts.

use crate::common::random::Random;
use odht::configs::{U32ToU32, U64ToU32};
use odht::dynamic::{DynError, DynTableOwned, Layout};
use odht::{Error, FxHashFn, HashTableOwned, UnHashFn};
use std::collections::HashMap;

// A key of this length, one of few, so that some come twice.
fn some_key(random: &mut Random, len: usize) -> Vec<u8> {
    let seed = random.below(90) as u8;
    (0..len).map(|place| if place % 3 == 1 { 7 } else { seed }).collect()
}

// Inserts that take the table through growths, beside the map.
fn compare(layout: Layout, random: &mut Random) {
    let (key_len, value_len) = (usize::from(layout.key_len), usize::from(layout.value_len));
    let mut table = DynTableOwned::<FxHashFn>::new(layout).unwrap();
    let mut map: HashMap<Vec<u8>, Vec<u8>> = HashMap::new();
    for _ in 0..120 {
        let key = some_key(random, key_len);
        let value: Vec<u8> = (0..value_len).map(|_| random.byte()).collect();
        let former = table.insert(&key, &value).unwrap();
        assert_eq!(former.map(|value| value.to_vec()), map.insert(key, value));
    }
    assert_eq!((table.layout(), table.len()), (layout, map.len()));
    assert!(table.as_view().verify());
    for (key, value) in &map {
        assert_eq!((table.get(key), table.contains_key(key)), (Some(&value[..]), true));
        assert_eq!(table.get_counted(key).0, Some(&value[..]));
        assert_eq!(table.get(&[&key[..], &[0]].concat()), None);
    }
    let walk: HashMap<_, _> = table.iter().map(|(k, v)| (k.to_vec(), v.to_vec())).collect();
    assert_eq!(walk, map);
    let copy = DynTableOwned::<FxHashFn>::from_raw_bytes(layout, table.raw_bytes()).unwrap();
    assert_eq!(copy.into_raw_bytes(), table.into_raw_bytes());
}

#[test]
fn each_length_of_keys() {
    let mut random = Random(68);
    for key_len in 0..=255 {
        for value_len in [0, 1, 8, 255] {
            compare(Layout { key_len, value_len }, &mut random);
        }
    }
}

#[test]
fn same_bytes_as_a_configuration() {
    let mut random = Random(6);
    let mut table = HashTableOwned::<U64ToU32>::with_capacity(3, 95);
    let layout = Layout::of::<U64ToU32>();
    let mut twin = DynTableOwned::<FxHashFn>::with_capacity(layout, 3, 95).unwrap();
    for _ in 0..3000 {
        let (key, value) = (random.below(2000) as u64, random.below(1 << 30) as u32);
        let former = table.insert(&key, &value);
        let found = twin.insert(&key.to_le_bytes(), &value.to_le_bytes()).unwrap();
        assert_eq!(found.as_deref(), former.map(u32::to_le_bytes).as_ref().map(|value| &value[..]));
        assert_eq!(twin.raw_bytes().len(), table.raw_bytes().len());
    }
    assert_eq!(twin.raw_bytes(), table.raw_bytes());
}

#[test]
fn a_refused_pair_changes_nothing() {
    let layout = Layout::of::<U32ToU32>();
    let mut table = DynTableOwned::<FxHashFn>::with_capacity(layout, 13, 87).unwrap();
    for n in 0..13_u32 {
        table.insert(&n.to_le_bytes(), &n.to_le_bytes()).unwrap();
    }
    let before = table.raw_bytes().to_vec();
    for len in (0..=255).filter(|len| *len != 4) {
        let error = DynError::WrongKeyLength { expected: 4, found: len };
        assert_eq!(table.insert(&vec![9; len], &[1; 3]), Err(error));
        let error = DynError::WrongValueLength { expected: 4, found: len };
        assert_eq!(table.insert(&[9; 4], &vec![1; len]), Err(error));
        assert_eq!(table.raw_bytes(), before);
    }
    table.insert(&[9; 4], &[1; 4]).unwrap();
    assert_eq!((table.len(), table.is_empty()), (14, false));
    assert_ne!(table.raw_bytes().len(), before.len());
}

#[test]
fn rejected() {
    let layout = Layout { key_len: 3, value_len: 9 };
    let short = Some(DynError::KeyTooShort { key_len: 3, least: 4 });
    assert_eq!(DynTableOwned::<UnHashFn>::new(layout).err(), short);
    assert_eq!(DynTableOwned::<UnHashFn>::from_raw_bytes(layout, b"").err(), short);
    let mut bytes = DynTableOwned::<FxHashFn>::new(layout).unwrap().into_raw_bytes();
    let last = bytes.len() - 1;
    bytes[last] = 1;
    let error = DynTableOwned::<FxHashFn>::from_raw_bytes(layout, &bytes).unwrap_err();
    assert!(matches!(error, DynError::Rejected(Error::MirrorMismatch { .. })));
    let other = Layout { key_len: 9, value_len: 3 };
    let error = DynTableOwned::<FxHashFn>::from_raw_bytes(other, &bytes).unwrap_err();
    assert!(matches!(error, DynError::Rejected(Error::WrongSizeOf { .. })));
    let many = DynTableOwned::<FxHashFn>::with_capacity(layout, usize::MAX, 87).err();
    assert_eq!(many, Some(DynError::Rejected(Error::Capacity)));
}

// Sixteen slots at 87 percent take 13 items, 32 slots 27, 64 slots 55.
#[test]
fn room_for_more() {
    let layout = Layout::of::<U64ToU32>();
    let mut table = HashTableOwned::<U64ToU32>::with_capacity(13, 87);
    let mut twin = DynTableOwned::<FxHashFn>::with_capacity(layout, 13, 87).unwrap();
    for n in 0..5_u64 {
        table.insert(&n, &7);
        twin.insert(&n.to_le_bytes(), &7_u32.to_le_bytes()).unwrap();
    }
    for (additional, slots) in [(0, 16), (8, 16), (9, 32), (22, 32), (23, 64), (1, 64)] {
        table.reserve(additional);
        assert_eq!(twin.reserve(additional), Ok(()));
        assert_eq!(twin.raw_bytes().len(), 32 + slots * 12 + slots + 16);
        assert_eq!(twin.raw_bytes(), table.raw_bytes());
    }
    for many in [usize::MAX, usize::MAX - 5, 1 << 62] {
        assert_eq!(twin.reserve(many), Err(DynError::Rejected(Error::Capacity)));
        assert_eq!(twin.raw_bytes(), table.raw_bytes());
    }
}
