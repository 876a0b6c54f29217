//! The configurations of the tests.

use odht::{Config, FxHashFn, HashFn, UnHashFn};
use std::marker::PhantomData;
use std::mem::size_of;

/// Keys and values that are bytes already.
pub struct Plain<const K: usize, const V: usize, H = FxHashFn>(PhantomData<H>);

impl<const K: usize, const V: usize, H: HashFn> Config for Plain<K, V, H> {
    type Key = [u8; K];
    type Value = [u8; V];
    type EncodedKey = [u8; K];
    type EncodedValue = [u8; V];
    type H = H;

    fn encode_key(key: &[u8; K]) -> [u8; K] {
        *key
    }
    fn encode_value(value: &[u8; V]) -> [u8; V] {
        *value
    }
    fn decode_key(key: &[u8; K]) -> [u8; K] {
        *key
    }
    fn decode_value(value: &[u8; V]) -> [u8; V] {
        *value
    }
}

/// A configuration of numbers, which are stored with their lowest byte first.
macro_rules! numbers {
    ($(#[$doc:meta])* $name:ident, $key:ty, $value:ty, $hash:ty) => {
        $(#[$doc])*
        pub struct $name;

        impl Config for $name {
            type Key = $key;
            type Value = $value;
            type EncodedKey = [u8; size_of::<$key>()];
            type EncodedValue = [u8; size_of::<$value>()];
            type H = $hash;

            fn encode_key(key: &Self::Key) -> Self::EncodedKey {
                key.to_le_bytes()
            }
            fn encode_value(value: &Self::Value) -> Self::EncodedValue {
                value.to_le_bytes()
            }
            fn decode_key(key: &Self::EncodedKey) -> Self::Key {
                <$key>::from_le_bytes(*key)
            }
            fn decode_value(value: &Self::EncodedValue) -> Self::Value {
                <$value>::from_le_bytes(*value)
            }
        }
    };
}

numbers! {
    /// From numbers of 32 bits to such.
    U32U32, u32, u32, FxHashFn
}
numbers! {
    /// From numbers of 64 bits to numbers of 32 bits.
    U64U32, u64, u32, FxHashFn
}
numbers! {
    /// From numbers of 32 bits to such, and the hash of a key is the key.
    Direct, u32, u32, UnHashFn
}

/// Keys of that many bytes whose last four are the hash, and values of that many bytes.
pub type Hashed<const K: usize, const V: usize> = Plain<K, V, UnHashFn>;
