//! Iterators over a view.

use super::HashTable;
use crate::config::Config;
use crate::iter::{IntoKeys, IntoValues, Iter, Keys, Slots, Values};
use std::borrow::Borrow;

impl<C: Config, D: Borrow<[u8]>> HashTable<C, D> {
    /// Returns an iterator over the keys and values, in slot order.
    ///
    /// ```
    /// # use odht::{configs::U64ToU32, HashTable, HashTableOwned};
    /// # let mut table = HashTableOwned::<U64ToU32>::default();
    /// # table.insert(&1, &2);
    /// # let view = HashTable::<U64ToU32, _>::try_from_raw_bytes(table.raw_bytes())?;
    /// assert_eq!(view.iter().collect::<Vec<_>>(), [(1, 2)]);
    /// # Ok::<(), odht::Error>(())
    /// ```
    #[inline]
    pub fn iter(&self) -> Iter<'_, C> {
        Iter::of(self.bytes(), 0)
    }

    /// Returns an iterator over the keys, in slot order. No value is decoded.
    ///
    /// ```
    /// # use odht::{configs::U64ToU32, HashTable, HashTableOwned};
    /// # let mut table = HashTableOwned::<U64ToU32>::default();
    /// # table.insert(&1, &2);
    /// # let view = HashTable::<U64ToU32, _>::try_from_raw_bytes(table.raw_bytes())?;
    /// assert_eq!(view.keys().collect::<Vec<_>>(), [1]);
    /// # Ok::<(), odht::Error>(())
    /// ```
    #[inline]
    pub fn keys(&self) -> Keys<'_, C> {
        Keys::of(self.bytes(), 0)
    }

    /// Returns an iterator over the values, in slot order. No key is decoded.
    ///
    /// ```
    /// # use odht::{configs::U64ToU32, HashTable, HashTableOwned};
    /// # let mut table = HashTableOwned::<U64ToU32>::default();
    /// # table.insert(&1, &2);
    /// # let view = HashTable::<U64ToU32, _>::try_from_raw_bytes(table.raw_bytes())?;
    /// assert_eq!(view.values().collect::<Vec<_>>(), [2]);
    /// # Ok::<(), odht::Error>(())
    /// ```
    #[inline]
    pub fn values(&self) -> Values<'_, C> {
        Values::of(self.bytes(), 0)
    }

    /// Consumes the view, and returns an iterator over its keys, in slot order. No value is
    /// decoded.
    ///
    /// ```
    /// # use odht::{configs::U64ToU32, HashTable, HashTableOwned};
    /// # let mut table = HashTableOwned::<U64ToU32>::default();
    /// # table.insert(&1, &2);
    /// let view = HashTable::<U64ToU32, _>::try_from_raw_bytes(table.raw_bytes())?;
    /// assert_eq!(view.into_keys().collect::<Vec<_>>(), [1]);
    /// # Ok::<(), odht::Error>(())
    /// ```
    #[inline]
    pub fn into_keys(self) -> IntoKeys<C, D> {
        IntoKeys::of(self)
    }

    /// Consumes the view, and returns an iterator over its values, in slot order. No key is
    /// decoded.
    ///
    /// ```
    /// # use odht::{configs::U64ToU32, HashTable, HashTableOwned};
    /// # let mut table = HashTableOwned::<U64ToU32>::default();
    /// # table.insert(&1, &2);
    /// let view = HashTable::<U64ToU32, _>::try_from_raw_bytes(table.raw_bytes())?;
    /// assert_eq!(view.into_values().collect::<Vec<_>>(), [2]);
    /// # Ok::<(), odht::Error>(())
    /// ```
    #[inline]
    pub fn into_values(self) -> IntoValues<C, D> {
        IntoValues::of(self)
    }

    /// Returns an iterator over the pairs in the slots from `from` on, in slot order. Each item is
    /// the index of a slot, with its key and value. If `from` is past the last slot, the iterator
    /// is empty.
    ///
    /// ```
    /// # use odht::{configs::U64ToU32, HashTable, HashTableOwned};
    /// # let table = HashTableOwned::<U64ToU32>::from_iterator((0..3).map(|n| (n, 0)), 95);
    /// # let view = HashTable::<U64ToU32, _>::try_from_raw_bytes(table.raw_bytes())?;
    /// // one pair at a time
    /// let (mut slot, mut keys) = (0, vec![]);
    /// while let Some((found, (key, _))) = view.iter_from(slot).next() {
    ///     keys.push(key);
    ///     slot = found + 1;
    /// }
    /// assert_eq!(keys.len(), 3);
    /// # Ok::<(), odht::Error>(())
    /// ```
    #[inline]
    pub fn iter_from(&self, from: usize) -> Slots<'_, C> {
        Slots::of(self.bytes(), from)
    }
}
