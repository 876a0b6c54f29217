//! Lookups and inserts by keys that are encoded already: beside those by keys, and beside a second writing, slot by
//! slot, that shares no code with the crate.

use crate::common::configs::Plain;
use crate::common::frame::{format, Named};
use crate::common::outcomes::outcome;
use crate::common::random::Random;
use crate::common::worked::three_pairs;
use crate::common::writing::Writing;
use odht::configs::U64ToU32;
use odht::{bytes_needed, Config, Error, FxHashFn, HashFn, HashTable, HashTableOwned, UnHashFn};
use std::cell::Cell;

// Both kinds of tables have the bytes of the second writing after each insert, with growths of the owned one.
fn inserts_are_as_written<const K: usize, const V: usize, H: Named>(count: usize) {
    let mut random = Random((K * 7 + V) as u64);
    let mut written = Writing::new(format::<K, V, H>(), 0, 87);
    let mut table = HashTableOwned::<Plain<K, V, H>>::with_capacity(0, 87);
    for step in 0..count {
        let mut key: [u8; K] = random.array();
        if step % 3 == 0 {
            key[0] = 7;
            key[1..].fill(0);
        }
        let value: [u8; V] = random.array();
        let former = table.get_encoded(&key);
        assert_eq!((former, table.contains_encoded(&key)), (table.get(&key), former.is_some()));
        assert_eq!(former.map(|it| it.to_vec()), written.insert(&key, &value));
        let inserted = if step % 2 == 0 {
            table.insert_encoded(&key, &value)
        } else {
            table.try_insert_encoded(&key, &value).unwrap()
        };
        assert_eq!(inserted, former);
        assert!(table.raw_bytes() == written.bytes, "{step}");
    }
    assert!(table.len() > count / 2 && table.verify_all());
}

trait Verified {
    fn verify_all(&self) -> bool;
}

impl<C: Config> Verified for HashTableOwned<C> {
    fn verify_all(&self) -> bool {
        let view = self.as_view();
        let keys = self.iter().map(|(key, _)| C::encode_key(&key));
        view.verify() && keys.into_iter().all(|key| view.contains_encoded(&key))
    }
}

#[test]
fn inserts_by_encoded_keys_are_as_written() {
    inserts_are_as_written::<4, 4, FxHashFn>(500);
    inserts_are_as_written::<8, 3, UnHashFn>(500);
    inserts_are_as_written::<20, 0, FxHashFn>(200);
    inserts_are_as_written::<255, 255, FxHashFn>(60);
}

// Header, length and slots of a table for no item at one percent: of 16 slots one percent is no item, so the first
// insert grows it to the 128 slots of which one percent is one.
#[test]
fn a_table_without_room_grows() {
    let mut table = HashTableOwned::<U64ToU32>::with_capacity(0, 1);
    assert_eq!((table.capacity(), table.raw_bytes().len()), (0, 32 + 13 * 16 + 16));
    assert_eq!(table.insert_encoded(&1_u64.to_le_bytes(), &2), None);
    assert_eq!((table.capacity(), table.raw_bytes().len()), (1, 32 + 13 * 128 + 16));
    assert_eq!(table.get(&1), Some(2));
}

#[test]
fn a_view_takes_encoded_keys_up_to_its_maximum() {
    let bytes = vec![0; bytes_needed::<U64ToU32>(3, 95)];
    let mut view = HashTable::<U64ToU32, _>::try_init_in_place(bytes, 3, 95).unwrap();
    assert_eq!(view.insert_encoded(&1_u64.to_le_bytes(), &9), None);
    assert_eq!(view.insert_encoded(&1_u64.to_le_bytes(), &2), Some(9));
    assert_eq!(view.try_insert_encoded(&3_u64.to_le_bytes(), &4), Ok(None));
    assert_eq!(view.try_insert_encoded(&5_u64.to_le_bytes(), &6), Ok(None));
    assert_eq!(view.raw_bytes(), three_pairs());
    // of 16 slots 95 percent are 15
    for key in 100..112_u64 {
        assert_eq!(view.try_insert_encoded(&key.to_le_bytes(), &0), Ok(None));
    }
    let before = view.raw_bytes().to_vec();
    let new = 7_u64.to_le_bytes();
    assert_eq!(view.try_insert_encoded(&new, &0), Err(Error::Full));
    assert_eq!(outcome(|| view.insert_encoded(&new, &0)), Err("Table is full".to_string()));
    assert_eq!(view.raw_bytes(), before);
    assert_eq!(view.try_insert_encoded(&1_u64.to_le_bytes(), &5), Ok(Some(2)));
}

#[test]
fn a_value_is_made_for_a_new_key_only() {
    let mut table = HashTableOwned::<U64ToU32>::from([(1, 2)]);
    let (present, new) = (1_u64.to_le_bytes(), 3_u64.to_le_bytes());
    assert_eq!(table.get_or_insert_encoded_with(&present, || unreachable!()), 2);
    assert_eq!(table.try_get_or_insert_encoded_with(&present, || unreachable!()), Ok(2));
    assert_eq!(table.get_or_insert_encoded_with(&new, || 4), 4);
    assert_eq!(table.try_get_or_insert_encoded_with(&[9; 8], || 5), Ok(5));
    assert_eq!(
        (table.get(&3), table.get(&0x0909_0909_0909_0909), table.len()),
        (Some(4), Some(5), 3)
    );
}

// Texts whose key is a `String`, with a hash function that panics when it is told to.
struct Texts;

#[derive(PartialEq, Eq)]
struct Failing;

thread_local! {
    static FAILS: Cell<bool> = const { Cell::new(false) };
    static ENCODED: Cell<usize> = const { Cell::new(0) };
}

impl HashFn for Failing {
    fn hash(bytes: &[u8]) -> u32 {
        assert!(!FAILS.get(), "told to fail");
        FxHashFn::hash(bytes)
    }
}

fn text(of: &str) -> [u8; 16] {
    let mut bytes = [0; 16];
    bytes[..of.len()].copy_from_slice(of.as_bytes());
    bytes
}

impl Config for Texts {
    type Key = String;
    type Value = u32;
    type EncodedKey = [u8; 16];
    type EncodedValue = [u8; 4];
    type H = Failing;

    fn encode_key(k: &String) -> [u8; 16] {
        ENCODED.set(ENCODED.get() + 1);
        text(k)
    }
    fn encode_value(v: &u32) -> [u8; 4] {
        v.to_le_bytes()
    }
    fn decode_key(k: &[u8; 16]) -> String {
        String::from_utf8_lossy(k).trim_end_matches('\0').to_string()
    }
    fn decode_value(v: &[u8; 4]) -> u32 {
        u32::from_le_bytes(*v)
    }
}

#[test]
fn no_key_is_made_for_a_text() {
    let mut table = HashTableOwned::<Texts>::new();
    for (at, word) in ["one", "two", "three"].into_iter().enumerate() {
        assert_eq!(table.insert_encoded(&text(word), &(at as u32 + 1)), None);
    }
    assert_eq!((table.get_encoded(&text("two")), table.get_encoded(&text("six"))), (Some(2), None));
    assert_eq!(ENCODED.get(), 0);
    assert_eq!(table.get(&"three".to_string()), Some(3));
    assert_eq!(ENCODED.get(), 1);
    let mut words: Vec<String> = table.into_keys().collect();
    words.sort();
    assert_eq!(words, ["one", "three", "two"]);
}

// The owned table is whole after a panic in its hash function, at an insert and at a growth.
#[test]
fn a_panic_leaves_the_table() {
    let mut table = HashTableOwned::<Texts>::new();
    let words: Vec<String> = (0..13).map(|n| format!("word {n}")).collect();
    for word in &words {
        let before = table.raw_bytes().to_vec();
        FAILS.set(true);
        assert_eq!(outcome(|| table.insert_encoded(&text(word), &7)).unwrap_err(), "told to fail");
        FAILS.set(false);
        assert_eq!(table.raw_bytes(), before);
        table.insert_encoded(&text(word), &7);
    }
    // of 16 slots 87 percent are 13: the next new key makes the table grow
    assert_eq!((table.len(), table.capacity()), (13, 13));
    let before = table.raw_bytes().to_vec();
    FAILS.set(true);
    assert!(outcome(|| table.insert_encoded(&text("new"), &8)).is_err());
    assert!(outcome(|| table.try_shrink_to_fit()).is_ok());
    FAILS.set(false);
    assert_eq!(table.raw_bytes(), before);
    assert_eq!(table.insert_encoded(&text("new"), &8), None);
    assert!(words.iter().all(|word| table.get_encoded(&text(word)) == Some(7)));
    // and a shrinking that panics
    table.reserve(100);
    let before = table.raw_bytes().to_vec();
    FAILS.set(true);
    assert_eq!(outcome(|| table.shrink_to_fit()).unwrap_err(), "told to fail");
    FAILS.set(false);
    assert_eq!(table.raw_bytes(), before);
}
