//! Ready configurations. Their keys are numbers or hashes, and their values are numbers, hashes or
//! empty.
//!
//! Numbers are stored little-endian. A configuration with [`UnHashFn`] is for keys that are hashes
//! already: the table uses their last four bytes as the hash, so these bytes should vary. For text,
//! tuples, floats and other keys, write one line with [`config!`](crate::config!), `by Xxh64`.
//!
//! They are the configurations of the proved library. It proves that decoding undoes encoding for
//! each of them.
//!
//! ```
//! use odht::{configs::U64ToU32, HashTableOwned};
//!
//! let mut table = HashTableOwned::<U64ToU32>::default();
//! table.insert(&1, &2);
//! assert_eq!(table.get(&1), Some(2));
//! ```

use crate::config::Config;
use crate::generated::base::hash::{FxHashFn, UnHashFn};
use crate::generated::header::config;
use crate::generated::tables::configs as proved;

macro_rules! ready {
    ($(
        $name:ident: $key:ty => $value:ty, $key_len:literal, $value_len:literal, $hash:ty, $words:literal;
    )*) => { $(
        #[doc = concat!($words, ", hashed by [`", stringify!($hash), "`].")]
        #[derive(Clone, Copy, PartialEq, Eq, Debug)]
        pub struct $name;

        impl Config for $name {
            type Key = $key;
            type Value = $value;
            type EncodedKey = [u8; $key_len];
            type EncodedValue = [u8; $value_len];
            type H = $hash;

            #[inline(always)]
            fn encode_key(k: &$key) -> [u8; $key_len] {
                <proved::$name as config::Config>::encode_key(k)
            }

            #[inline(always)]
            fn encode_value(v: &$value) -> [u8; $value_len] {
                <proved::$name as config::Config>::encode_value(v)
            }

            #[inline(always)]
            fn decode_key(k: &[u8; $key_len]) -> $key {
                <proved::$name as config::Config>::decode_key(k)
            }

            #[inline(always)]
            fn decode_value(v: &[u8; $value_len]) -> $value {
                <proved::$name as config::Config>::decode_value(v)
            }
        }
    )* };
}

include!("configs/generated/list.rs");
each_configuration!(ready);
