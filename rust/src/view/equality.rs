//! Whether two tables in bytes are the same.

use super::HashTable;
use crate::config::Config;
use std::borrow::Borrow;

impl<C: Config, D: Borrow<[u8]>, E: Borrow<[u8]>> PartialEq<HashTable<C, E>> for HashTable<C, D> {
    /// Compares the views as maps. They are equal if [`verify`](HashTable::verify) returns `true`
    /// for both, and [`is_same_map`](HashTable::is_same_map) returns `true`. So a view of bytes
    /// that are not those of a valid table is not equal to any view, not even to itself. Views
    /// therefore do not implement `Eq`.
    ///
    /// If the item counts differ, nothing else is read. Otherwise the cost is two whole checks and
    /// a lookup for each key. If you have checked both before, call `is_same_map`: it returns the
    /// same, and costs only the lookups. A check of untrusted bytes can take long, so call
    /// [`verify_within`](HashTable::verify_within) on them first.
    ///
    /// ```
    /// use odht::{configs::U64ToU32, HashTable, HashTableOwned};
    ///
    /// let one = HashTableOwned::<U64ToU32>::from([(1, 2), (3, 4)]);
    /// let other = HashTableOwned::<U64ToU32>::from_iterator([(3, 4), (1, 2)], 10);
    /// assert!(one.as_view() == other.as_view());
    ///
    /// let mut bytes = one.raw_bytes().to_vec();
    /// *bytes.last_mut().unwrap() ^= 1; // in the mirror, which opening does not check
    /// let view = HashTable::<U64ToU32, _>::try_from_raw_bytes(bytes)?;
    /// assert!(view.is_same_map(&one.as_view()) && view != one.as_view());
    /// # Ok::<(), odht::Error>(())
    /// ```
    fn eq(&self, other: &HashTable<C, E>) -> bool {
        self.len() == other.len() && self.verify() && other.verify() && self.is_same_map(other)
    }
}

impl<C: Config, D: Borrow<[u8]>> HashTable<C, D> {
    /// Returns `true` if this table and another are the same map: if they have the same encoded
    /// keys with the same encoded values. Their slots, their load factors and the order of their
    /// inserts do not matter. The result is right for bytes that [`check_all`](crate::check_all)
    /// accepts.
    ///
    /// If the item counts differ, no key is looked up. Otherwise each key of this table is looked
    /// up in the other, up to the first difference.
    ///
    /// Unlike `==`, this call does not check the bytes first. If they are not those of a valid
    /// table, it may return `false` even for a view and itself.
    ///
    /// ```
    /// use odht::{configs::U64ToU32, HashTable, HashTableOwned};
    ///
    /// let one = HashTableOwned::<U64ToU32>::from([(1, 2), (3, 4)]);
    /// let other = HashTableOwned::<U64ToU32>::from_iterator([(3, 4), (1, 2)], 10);
    /// let view = HashTable::<U64ToU32, _>::try_from_raw_bytes(one.raw_bytes())?;
    /// let wide = HashTable::<U64ToU32, _>::try_from_raw_bytes(other.raw_bytes().to_vec())?;
    /// assert!(view.is_same_map(&wide) && !view.has_same_bytes(&wide));
    /// # Ok::<(), odht::Error>(())
    /// ```
    #[must_use]
    pub fn is_same_map<E: Borrow<[u8]>>(&self, other: &HashTable<C, E>) -> bool {
        self.view().is_same_map(&other.view())
    }

    /// Returns `true` if this table and another have the same bytes. Tables that are the same map
    /// may have different bytes.
    ///
    /// ```
    /// use odht::{configs::U64ToU32, HashTable, HashTableOwned};
    ///
    /// let table = HashTableOwned::<U64ToU32>::from([(1, 2), (3, 4)]);
    /// let view = HashTable::<U64ToU32, _>::try_from_raw_bytes(table.raw_bytes())?;
    /// assert!(view.has_same_bytes(&view));
    /// # Ok::<(), odht::Error>(())
    /// ```
    #[must_use]
    pub fn has_same_bytes<E: Borrow<[u8]>>(&self, other: &HashTable<C, E>) -> bool {
        self.view().has_same_bytes(&other.view())
    }
}
