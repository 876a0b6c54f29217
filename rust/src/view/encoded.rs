//! Lookups and inserts by keys that are encoded already.

use super::HashTable;
use crate::config::Config;
use crate::encoded::{stored, stored_mut};
use crate::generated::header::error::Error;
use crate::sizes::refused;
use std::borrow::{Borrow, BorrowMut};

impl<C: Config, D: Borrow<[u8]>> HashTable<C, D> {
    /// Like [`get`](HashTable::get), for a key that is already encoded. If `Key` is a `String`,
    /// this looks up a `&str` without an allocation: you encode the text yourself. The example
    /// `names` shows such a dictionary.
    ///
    /// ```
    /// # use odht::{configs::U64ToU32, HashTable, HashTableOwned};
    /// # let mut table = HashTableOwned::<U64ToU32>::default();
    /// # table.insert(&1, &2);
    /// let view = HashTable::<U64ToU32, _>::try_from_raw_bytes(table.raw_bytes())?;
    /// assert_eq!(view.get_encoded(&1_u64.to_le_bytes()), Some(2));
    /// # Ok::<(), odht::Error>(())
    /// ```
    #[inline]
    #[must_use]
    pub fn get_encoded(&self, key: &C::EncodedKey) -> Option<C::Value> {
        stored::<C>(self.bytes()).get(key).map(|value| C::decode_value(&value))
    }

    /// Like [`contains_key`](HashTable::contains_key), for a key that is already encoded.
    ///
    /// ```
    /// # use odht::{configs::U64ToU32, HashTable, HashTableOwned};
    /// # let mut table = HashTableOwned::<U64ToU32>::default();
    /// # table.insert(&1, &2);
    /// let view = HashTable::<U64ToU32, _>::try_from_raw_bytes(table.raw_bytes())?;
    /// assert!(view.contains_encoded(&1_u64.to_le_bytes()));
    /// # Ok::<(), odht::Error>(())
    /// ```
    #[inline]
    #[must_use]
    pub fn contains_encoded(&self, key: &C::EncodedKey) -> bool {
        stored::<C>(self.bytes()).contains_key(key)
    }
}

impl<C: Config, D: Borrow<[u8]> + BorrowMut<[u8]>> HashTable<C, D> {
    /// Like [`insert`](HashTable::insert), for a key that is already encoded.
    ///
    /// The bytes should be those that `encode_key` returns for a key. Other bytes are stored as
    /// they are, and iterators decode them.
    ///
    /// ```
    /// use odht::{bytes_needed, configs::U64ToU32, HashTable};
    ///
    /// let bytes = vec![0; bytes_needed::<U64ToU32>(3, 95)];
    /// let mut table = HashTable::<U64ToU32, _>::try_init_in_place(bytes, 3, 95)?;
    /// assert_eq!(table.insert_encoded(&1_u64.to_le_bytes(), &2), None);
    /// assert_eq!(table.get(&1), Some(2));
    /// # Ok::<(), odht::Error>(())
    /// ```
    ///
    /// # Panics
    ///
    /// Panics when [`insert`](HashTable::insert) does.
    #[inline(always)]
    #[track_caller]
    pub fn insert_encoded(&mut self, key: &C::EncodedKey, value: &C::Value) -> Option<C::Value> {
        match self.try_insert_encoded(key, value) {
            Ok(former) => former,
            Err(e) => refused(e, 0),
        }
    }

    /// Like [`insert_encoded`](HashTable::insert_encoded), but returns an error instead of
    /// panicking.
    ///
    /// ```
    /// use odht::{bytes_needed, configs::U64ToU32, HashTable};
    ///
    /// let bytes = vec![0; bytes_needed::<U64ToU32>(3, 95)];
    /// let mut table = HashTable::<U64ToU32, _>::try_init_in_place(bytes, 3, 95)?;
    /// assert_eq!(table.try_insert_encoded(&1_u64.to_le_bytes(), &2)?, None);
    /// assert_eq!(table.try_insert_encoded(&1_u64.to_le_bytes(), &5)?, Some(2));
    /// # Ok::<(), odht::Error>(())
    /// ```
    ///
    /// # Errors
    ///
    /// Those of [`try_insert`](HashTable::try_insert).
    #[inline]
    pub fn try_insert_encoded(
        &mut self,
        key: &C::EncodedKey,
        value: &C::Value,
    ) -> Result<Option<C::Value>, Error> {
        let value = C::encode_value(value);
        let former = stored_mut::<C>(self.bytes_mut()).insert(key, &value)?;
        Ok(former.map(|value| C::decode_value(&value)))
    }
}
