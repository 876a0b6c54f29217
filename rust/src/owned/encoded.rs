//! Lookups and inserts by keys that are encoded already.

use super::{tables, Config, Error, HashTableOwned, Proved};
use crate::encoded::{stored, stored_mut};
use crate::generated::base::bytes::OwnedBytes;
use alloc::vec::Vec;
use std::mem;

impl<C: Config> HashTableOwned<C> {
    /// Like [`get`](HashTableOwned::get), for a key that is already encoded. If `Key` is a
    /// `String`, this looks up a `&str` without an allocation: you encode the text yourself.
    ///
    /// ```
    /// use odht::{Config, FxHashFn, HashTableOwned};
    ///
    /// /// Words of at most eight bytes, filled up with zeros.
    /// struct Words;
    ///
    /// fn word(text: &str) -> [u8; 8] {
    ///     let mut bytes = [0; 8];
    ///     bytes[..text.len()].copy_from_slice(text.as_bytes());
    ///     bytes
    /// }
    ///
    /// impl Config for Words {
    ///     type Key = String;
    ///     type Value = u8;
    ///     type EncodedKey = [u8; 8];
    ///     type EncodedValue = [u8; 1];
    ///     type H = FxHashFn;
    ///
    ///     fn encode_key(k: &String) -> [u8; 8] {
    ///         word(k)
    ///     }
    ///     fn encode_value(v: &u8) -> [u8; 1] {
    ///         [*v]
    ///     }
    ///     fn decode_key(k: &[u8; 8]) -> String {
    ///         String::from_utf8_lossy(k).trim_end_matches('\0').to_string()
    ///     }
    ///     fn decode_value(v: &[u8; 1]) -> u8 {
    ///         v[0]
    ///     }
    /// }
    ///
    /// let words = HashTableOwned::<Words>::from([("one".to_string(), 1)]);
    /// assert_eq!(words.get_encoded(&word("one")), Some(1));
    /// ```
    #[inline]
    #[must_use]
    pub fn get_encoded(&self, key: &C::EncodedKey) -> Option<C::Value> {
        stored::<C>(self.raw_bytes()).get(key).map(|value| C::decode_value(&value))
    }

    /// Like [`contains_key`](HashTableOwned::contains_key), for a key that is already encoded.
    ///
    /// ```
    /// # use odht::{configs::U64ToU32, HashTableOwned};
    /// let table = HashTableOwned::<U64ToU32>::from([(1, 2)]);
    /// assert!(table.contains_encoded(&1_u64.to_le_bytes()));
    /// ```
    #[inline]
    #[must_use]
    pub fn contains_encoded(&self, key: &C::EncodedKey) -> bool {
        stored::<C>(self.raw_bytes()).contains_key(key)
    }

    /// Like [`insert`](HashTableOwned::insert), for a key that is already encoded.
    ///
    /// The bytes should be those that `encode_key` returns for a key. Other bytes are stored as
    /// they are, and iterators decode them.
    ///
    /// ```
    /// # use odht::{configs::U64ToU32, HashTableOwned};
    /// # let mut table = HashTableOwned::<U64ToU32>::default();
    /// assert_eq!(table.insert_encoded(&1_u64.to_le_bytes(), &2), None);
    /// assert_eq!(table.get(&1), Some(2));
    /// ```
    ///
    /// # Panics
    ///
    /// Panics when [`insert`](HashTableOwned::insert) does.
    #[inline]
    #[track_caller]
    pub fn insert_encoded(&mut self, key: &C::EncodedKey, value: &C::Value) -> Option<C::Value> {
        match self.try_insert_encoded(key, value) {
            Ok(former) => former,
            Err(e) => self.cannot_grow(e),
        }
    }

    /// Like [`insert_encoded`](HashTableOwned::insert_encoded), but returns an error if allocation
    /// fails.
    ///
    /// ```
    /// # use odht::{configs::U64ToU32, HashTableOwned};
    /// # let mut table = HashTableOwned::<U64ToU32>::default();
    /// assert_eq!(table.try_insert_encoded(&1_u64.to_le_bytes(), &2)?, None);
    /// # Ok::<(), odht::Error>(())
    /// ```
    ///
    /// # Errors
    ///
    /// Those of [`try_insert`](HashTableOwned::try_insert).
    pub fn try_insert_encoded(
        &mut self,
        key: &C::EncodedKey,
        value: &C::Value,
    ) -> Result<Option<C::Value>, Error> {
        let value = C::encode_value(value);
        let mut done = self.insert_stored(key, &value);
        if done == Err(Error::Full) {
            // The slots for twice as many items, and for at least one, as when `insert` grows the
            // table.
            self.try_reserve(self.len().max(1)).map_err(|_| Error::Memory)?;
            done = self.insert_stored(key, &value);
        }
        Ok(done?.map(|value| C::decode_value(&value)))
    }

    // Inserts an encoded pair. The table does not grow.
    fn insert_stored(
        &mut self,
        key: &C::EncodedKey,
        value: &C::EncodedValue,
    ) -> Result<Option<C::EncodedValue>, Error> {
        let mut lent = Lent::of(self);
        stored_mut::<C>(&mut lent.bytes).insert(key, value)
    }

    /// Like [`get_or_insert_with`](HashTableOwned::get_or_insert_with), for a key that is already
    /// encoded.
    ///
    /// ```
    /// # use odht::{configs::U64ToU32, HashTableOwned};
    /// # let mut table = HashTableOwned::<U64ToU32>::default();
    /// assert_eq!(table.get_or_insert_encoded_with(&1_u64.to_le_bytes(), || 2), 2);
    /// assert_eq!(table.get_or_insert_encoded_with(&1_u64.to_le_bytes(), || 5), 2);
    /// ```
    ///
    /// # Panics
    ///
    /// Panics when [`insert`](HashTableOwned::insert) does.
    #[track_caller]
    pub fn get_or_insert_encoded_with(
        &mut self,
        key: &C::EncodedKey,
        make: impl FnOnce() -> C::Value,
    ) -> C::Value {
        if let Some(value) = self.get_encoded(key) {
            return value;
        }
        let value = make();
        self.insert_encoded(key, &value);
        value
    }

    /// Like [`get_or_insert_encoded_with`](HashTableOwned::get_or_insert_encoded_with), but returns
    /// an error if allocation fails.
    ///
    /// ```
    /// # use odht::{configs::U64ToU32, HashTableOwned};
    /// # let mut table = HashTableOwned::<U64ToU32>::default();
    /// assert_eq!(table.try_get_or_insert_encoded_with(&1_u64.to_le_bytes(), || 2)?, 2);
    /// # Ok::<(), odht::Error>(())
    /// ```
    ///
    /// # Errors
    ///
    /// Those of [`try_insert`](HashTableOwned::try_insert).
    pub fn try_get_or_insert_encoded_with(
        &mut self,
        key: &C::EncodedKey,
        make: impl FnOnce() -> C::Value,
    ) -> Result<C::Value, Error> {
        if let Some(value) = self.get_encoded(key) {
            return Ok(value);
        }
        let value = make();
        self.try_insert_encoded(key, &value)?;
        Ok(value)
    }
}

// The bytes of a table, taken out of it for an insert of encoded pairs. `drop` puts them back in
// any case, since the configuration's hash function may panic.
struct Lent<'t, C: Config> {
    table: &'t mut tables::HashTable<Proved<C>, OwnedBytes>,
    bytes: Vec<u8>,
}

impl<'t, C: Config> Lent<'t, C> {
    fn of(owner: &'t mut HashTableOwned<C>) -> Self {
        let table = &mut owner.0.table;
        let without = tables::HashTable::from_raw_bytes_unchecked(OwnedBytes::new(Vec::new()));
        let bytes = mem::replace(table, without).into_data().into_vec();
        Lent { table, bytes }
    }
}

impl<C: Config> Drop for Lent<'_, C> {
    fn drop(&mut self) {
        let bytes = OwnedBytes::new(mem::take(&mut self.bytes));
        *self.table = tables::HashTable::from_raw_bytes_unchecked(bytes);
    }
}
