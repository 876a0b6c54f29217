// Generated from crates/odht_raw/src/items.rt by make generate.
//! Lists of keys and values, whatever their form in memory, and the bytes as which they are stored.

use crate::generated::raw::bytes::ByteArray;
use crate::generated::raw::config::Config;
use crate::generated::raw::layout::Layout;
use std::marker::PhantomData;

/// A list of keys and their values, each read where it is in memory.
pub trait Items<K, V> {
    /// How many items there are.
    fn count(&self) -> usize;

    /// The key and the value at an index.
    fn at(&self, index: usize) -> (&K, &V);
}

impl<K, V> Items<K, V> for &[(K, V)] {
    #[inline(always)]
    fn count(&self) -> usize {
        self.len()
    }

    #[inline(always)]
    fn at(&self, index: usize) -> (&K, &V) {
        let items = *self;
        let (key, value) = &items[index];
        (key, value)
    }
}

/// The keys of one slice and the values of another, at each index.
pub struct Zipped<'k, 'v, K, V> {
    keys: &'k [K],
    values: &'v [V],
}

impl<'k, 'v, K, V> Zipped<'k, 'v, K, V> {
    /// The key and the value at each index of two slices that are equally long.
    #[inline(always)]
    pub fn new(keys: &'k [K], values: &'v [V]) -> Self {
        Zipped { keys, values }
    }
}

impl<'k, 'v, K, V> Items<K, V> for Zipped<'k, 'v, K, V> {
    #[inline(always)]
    fn count(&self) -> usize {
        self.keys.len()
    }

    #[inline(always)]
    fn at(&self, index: usize) -> (&K, &V) {
        let (keys, values) = (self.keys, self.values);
        (&keys[index], &values[index])
    }
}

/// The bytes of a key and those of its value. Each has as many as its type says.
#[inline(always)]
pub(crate) fn encode_pair<C: Config>(
    key: &C::Key,
    value: &C::Value,
) -> (C::EncodedKey, C::EncodedValue) {
    let key = C::encode_key(key);
    let value = C::encode_value(value);
    // For the prover: how long they are.
    let _ = key.as_slice();
    let _ = value.as_slice();
    (key, value)
}

/// A list of keys and values, each of which gives the bytes as which it is stored. Batches of
/// inserts are written over it once, for items of types and for items that are bytes already.
///
/// In a contract the ghost member `items` is the bytes of the items, `key_len` and `value_len` are
/// the lengths of the table, and `fits` says that the key and the value at an index have these.
pub trait EncodedItems {
    /// A key, from which its bytes are read.
    type Key;

    /// A value, from which its bytes are read.
    type Value;

    /// How many items there are.
    fn count(&self) -> usize;

    /// Whether the key and the value at an index have the lengths of the table. An item that does
    /// not fit ends a list of inserts.
    fn fits(&self, index: usize) -> bool;

    /// The key at an index.
    fn key(&self, index: usize) -> Self::Key;

    /// The key and the value at an index.
    fn pair(&self, index: usize) -> (Self::Key, Self::Value);

    /// The bytes of a key.
    fn key_bytes(key: &Self::Key) -> &[u8];

    /// The bytes of a value.
    fn value_bytes(value: &Self::Value) -> &[u8];
}

/// Items of a configuration, which are encoded where they are read. Each of them fits.
pub struct Encoded<'a, C: Config, I> {
    /// The keys and values.
    pub items: &'a I,
    /// Their configuration.
    pub config: PhantomData<C>,
}

impl<'a, C: Config, I: Items<C::Key, C::Value>> EncodedItems for Encoded<'a, C, I> {
    type Key = C::EncodedKey;

    type Value = C::EncodedValue;

    #[inline(always)]
    fn count(&self) -> usize {
        self.items.count()
    }

    #[inline(always)]
    fn fits(&self, _index: usize) -> bool {
        true
    }

    #[inline(always)]
    fn key(&self, index: usize) -> C::EncodedKey {
        let (key, _) = self.items.at(index);
        let key = C::encode_key(key);
        // For the prover: how long it is.
        let _ = key.as_slice();
        key
    }

    #[inline(always)]
    fn pair(&self, index: usize) -> (C::EncodedKey, C::EncodedValue) {
        let (key, value) = self.items.at(index);
        encode_pair::<C>(key, value)
    }

    #[inline(always)]
    fn key_bytes(key: &C::EncodedKey) -> &[u8] {
        key.as_slice()
    }

    #[inline(always)]
    fn value_bytes(value: &C::EncodedValue) -> &[u8] {
        value.as_slice()
    }
}

/// Items that are bytes already, of any lengths, and the lengths of the table.
pub(crate) struct ItemBytes<'a> {
    pub(crate) layout: Layout,
    pub(crate) items: &'a [(&'a [u8], &'a [u8])],
}

impl<'a> EncodedItems for ItemBytes<'a> {
    type Key = &'a [u8];

    type Value = &'a [u8];

    #[inline(always)]
    fn count(&self) -> usize {
        self.items.len()
    }

    #[inline(always)]
    fn fits(&self, index: usize) -> bool {
        let items = self.items;
        let (key, value) = items[index];
        key.len() == self.layout.key_len as usize && value.len() == self.layout.value_len as usize
    }

    #[inline(always)]
    fn key(&self, index: usize) -> &'a [u8] {
        let items = self.items;
        let (key, _) = items[index];
        key
    }

    #[inline(always)]
    fn pair(&self, index: usize) -> (&'a [u8], &'a [u8]) {
        let items = self.items;
        items[index]
    }

    #[inline(always)]
    fn key_bytes<'k>(key: &'k &'a [u8]) -> &'k [u8] {
        key
    }

    #[inline(always)]
    fn value_bytes<'v>(value: &'v &'a [u8]) -> &'v [u8] {
        value
    }
}
