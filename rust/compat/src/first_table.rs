//! A table of three pairs, stored and read again.

use odht::{Config, FxHashFn, HashTable, HashTableOwned};

pub struct Numbers;

impl Config for Numbers {
    type Key = u64;
    type Value = u32;

    type EncodedKey = [u8; 8];
    type EncodedValue = [u8; 4];

    type H = FxHashFn;

    #[inline]
    fn encode_key(k: &Self::Key) -> Self::EncodedKey {
        k.to_le_bytes()
    }

    #[inline]
    fn encode_value(v: &Self::Value) -> Self::EncodedValue {
        v.to_le_bytes()
    }

    #[inline]
    fn decode_key(k: &Self::EncodedKey) -> Self::Key {
        u64::from_le_bytes(*k)
    }

    #[inline]
    fn decode_value(v: &Self::EncodedValue) -> Self::Value {
        u32::from_le_bytes(*v)
    }
}

/// The bytes of the table.
pub fn build() -> Vec<u8> {
    let mut table = HashTableOwned::<Numbers>::with_capacity(3, 95);
    for number in &[1_u64, 3, 5] {
        assert_eq!(table.insert(number, &(*number as u32 + 1)), None);
    }
    table.raw_bytes().to_owned()
}

/// The values of keys in a stored table.
pub fn look_up(stored: &[u8], keys: &[u64]) -> Vec<Option<u32>> {
    let table = HashTable::<Numbers, &[u8]>::from_raw_bytes(stored).unwrap();
    keys.iter().map(|key| table.get(key)).collect()
}
