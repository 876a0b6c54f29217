// Generated from crates/odht_raw/src/raw_table/stored.rt by make generate.
//! The entries of a table, read from their bytes: with keys and values as bytes, whose lengths are
//! types or numbers, and with keys and values as types; and a few bytes by value.

use crate::generated::raw::bytes::ByteArray;
use crate::generated::raw::layout::{Fixed, Lengths};

/// The entries of a number of slots, key then value, slot by slot, read at any alignment. Keys and
/// values are bytes of the right length. A search reads entries only through it.
///
/// In a contract it is the lengths of keys and values, and the entries.
pub struct Stored<'a, L: Lengths> {
    bytes: &'a [u8],
    slots: usize,
    lengths: L,
}

impl<'a, L: Lengths> Stored<'a, L> {
    /// The entries of `slots` slots in `bytes`.
    #[inline(always)]
    pub fn new(bytes: &'a [u8], slots: usize, lengths: L) -> Self {
        Stored { bytes, slots, lengths }
    }

    // A second reader of the same entries.
    #[inline(always)]
    pub(super) fn copy(&self) -> Self {
        Stored { bytes: self.bytes, slots: self.slots, lengths: self.lengths }
    }

    /// How many slots there are.
    #[inline(always)]
    pub fn slots(&self) -> usize {
        self.slots
    }

    /// The lengths of keys and values.
    #[inline(always)]
    pub fn lengths(&self) -> L {
        self.lengths
    }

    /// The entry of a slot: key, then value.
    #[inline(always)]
    pub fn entry(&self, slot: usize) -> &'a [u8] {
        self.lengths.entry(self.bytes, slot)
    }

    /// The key of a slot.
    #[inline(always)]
    pub fn key(&self, slot: usize) -> &'a [u8] {
        let entry = self.entry(slot);
        &index!(entry[..self.lengths.key_len()], "slot < self.now.entries.slots")
    }

    /// `key` of a slot that may come from a list of the caller's. The plain-Rust build checks this
    /// index, and not that of `key`: if another process rewrites the bytes, the list may name any
    /// slot.
    #[inline(always)]
    pub(super) fn listed_key(&self, slot: usize) -> &'a [u8] {
        let bytes = self.bytes;
        let at = slot * self.lengths.entry_len();
        &bytes[at..at + self.lengths.key_len()]
    }

    /// The value of a slot.
    #[inline(always)]
    pub fn value(&self, slot: usize) -> &'a [u8] {
        let entry = self.entry(slot);
        &index!(entry[self.lengths.key_len()..], "slot < self.now.entries.slots")
    }

    /// Whether the key of a slot is `key`, which is as long.
    // The entry is cut by the length of `key`: where the compiler knows that length, it compares
    // with no loop. The whole entry is cut out of the bytes, as `value` cuts it: where the value is
    // read next, that is the same cut, and is made once.
    #[inline(always)]
    pub fn has_key(&self, slot: usize, key: &[u8]) -> bool {
        let entry = self.entry(slot);
        self.lengths
            .is_same_key(&index!(entry[..key.len()], "length key.now ≡ self.now.key_len"), key)
    }
}

/// An entry: an encoded key and its encoded value, as a slot holds them.
#[derive(Clone, Copy, PartialEq, Eq, Debug)]
pub struct Entry<K: ByteArray, V: ByteArray> {
    /// The encoded key.
    pub key: K,
    /// The encoded value.
    pub value: V,
}

impl<K: ByteArray, V: ByteArray> Default for Entry<K, V> {
    /// The entry of a free slot: zeros.
    #[inline]
    fn default() -> Self {
        Entry { key: K::zeroed(), value: V::zeroed() }
    }
}

/// The entries of a number of slots, read from their bytes at any alignment.
pub struct Entries<'a, K: ByteArray, V: ByteArray> {
    stored: Stored<'a, Fixed<K, V>>,
}

impl<'a, K: ByteArray, V: ByteArray> Entries<'a, K, V> {
    /// The entries of `slots` slots in `bytes`, key then value, slot by slot.
    #[inline]
    pub fn new(bytes: &'a [u8], slots: usize) -> Self {
        Entries { stored: Stored::new(bytes, slots, Fixed::new()) }
    }

    // These entries, with keys and values as types.
    #[inline(always)]
    pub(crate) fn of(stored: Stored<'a, Fixed<K, V>>) -> Self {
        Entries { stored }
    }

    // The same entries, with keys and values as bytes.
    #[inline(always)]
    pub(super) fn stored(&self) -> Stored<'a, Fixed<K, V>> {
        self.stored.copy()
    }

    /// How many slots there are.
    #[inline]
    pub fn len(&self) -> usize {
        self.stored.slots()
    }

    /// The entry of a slot.
    #[inline]
    pub fn get(&self, slot: usize) -> Entry<K, V> {
        let stored = self.stored();
        Entry { key: K::from_slice(stored.key(slot)), value: V::from_slice(stored.value(slot)) }
    }

    // Whether the key of a slot is `key`.
    #[inline(always)]
    pub(super) fn is_at(&self, slot: usize, key: &K) -> bool {
        self.stored().has_key(slot, key.as_slice())
    }
}

/// At most 255 bytes by value, as a key or a value of a table has. No memory is allocated for
/// them.
///
/// In a contract it is these bytes.
#[derive(Clone, Copy)]
pub struct ShortBytes {
    bytes: [u8; 255],
    len: usize,
}

impl ShortBytes {
    /// A copy of the bytes, of which there are at most 255.
    #[inline(always)]
    pub fn of(slice: &[u8]) -> Self {
        let mut bytes = [0; 255];
        let len = slice.len();
        bytes[..len].copy_from_slice(slice);
        ShortBytes { bytes, len }
    }

    /// The bytes.
    #[inline]
    pub fn as_slice(&self) -> &[u8] {
        let bytes = &self.bytes;
        &bytes[..self.len]
    }
}
