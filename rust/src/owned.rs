//! The table that owns its bytes, and grows.
//!
//! This module ensures what the proved library requires: the bytes are ones that the proved library
//! wrote or checked, a load factor is a percentage (`percent_of`), and slices have the right
//! lengths.

use crate::config::{Config, Proved};
use crate::generated::base::load::max_item_count_for;
use crate::generated::header::error::Error;
use crate::generated::raw::memory_layout::Header;
use crate::generated::tables;
use crate::iter::{occupied, Iter, Keys, Slots, Values};
use crate::shim::Global;
use crate::sizes::{percent_of, refused};
use alloc::vec::Vec;
use std::error::Error as AnyError;

mod encoded;
mod equality;
mod inserts;
mod making;
mod room;
mod traits;

/// A hash table that owns its bytes, and grows when a new key is inserted at its maximum item count
/// ([`capacity`](HashTableOwned::capacity)).
///
/// ```
/// use odht::{configs::U64ToU32, HashTableOwned};
///
/// let mut table = HashTableOwned::<U64ToU32>::with_capacity(3, 95);
/// assert_eq!(table.insert(&1, &2), None);
/// assert_eq!(table.insert(&1, &5), Some(2));
/// assert_eq!(table.get(&1), Some(5));
/// assert_eq!(table.raw_bytes().len(), 256);
/// ```
pub struct HashTableOwned<C: Config>(tables::HashTableOwned<Proved<C>>);

impl<C: Config> HashTableOwned<C> {
    /// Returns the value that the last insert of the key stored, or `None`.
    ///
    /// Reads each group of sixteen control bytes at most once.
    ///
    /// ```
    /// # use odht::{configs::U64ToU32, HashTableOwned};
    /// # let mut table = HashTableOwned::<U64ToU32>::default();
    /// table.insert(&1, &2);
    /// assert_eq!((table.get(&1), table.get(&3)), (Some(2), None));
    /// ```
    #[inline]
    #[must_use]
    pub fn get(&self, key: &C::Key) -> Option<C::Value> {
        self.0.get(key)
    }

    /// Looks up many keys, and writes the value of `keys[i]` to `values[i]`.
    ///
    /// The first groups of eight keys are read ahead, and each key is encoded twice. In this crate
    /// that is seldom faster than a loop of `get`. In `bench/RESULTS.md` it took 0.9 to 1.3 times
    /// as long for present keys of 64 bits, and up to 1.7 times for absent ones.
    ///
    /// ```
    /// # use odht::{configs::U64ToU32, HashTableOwned};
    /// # let mut table = HashTableOwned::<U64ToU32>::default();
    /// table.insert(&1, &2);
    /// let mut values = [None; 2];
    /// table.get_all(&[1, 3], &mut values);
    /// assert_eq!(values, [Some(2), None]);
    /// ```
    ///
    /// # Panics
    ///
    /// Panics if `keys` and `values` have different lengths.
    #[inline]
    #[track_caller]
    pub fn get_all(&self, keys: &[C::Key], values: &mut [Option<C::Value>]) {
        assert_eq!(keys.len(), values.len(), "there is a value for each key");
        self.0.get_all(keys, values);
    }

    /// Like [`get`](HashTableOwned::get), and also returns how many groups of sixteen control bytes
    /// it read. These are the groups up to the first slot that is free or contains the key.
    ///
    /// ```
    /// # use odht::{configs::U64ToU32, HashTableOwned};
    /// # let mut table = HashTableOwned::<U64ToU32>::default();
    /// table.insert(&1, &2);
    /// assert_eq!(table.get_counted(&1), (Some(2), 1));
    /// ```
    #[inline]
    #[must_use]
    pub fn get_counted(&self, key: &C::Key) -> (Option<C::Value>, usize) {
        self.0.get_counted(key)
    }

    /// Returns `true` if the key has a value.
    ///
    /// ```
    /// # use odht::{configs::U64ToU32, HashTableOwned};
    /// # let mut table = HashTableOwned::<U64ToU32>::default();
    /// table.insert(&1, &2);
    /// assert!(table.contains_key(&1) && !table.contains_key(&3));
    /// ```
    #[inline]
    #[must_use]
    pub fn contains_key(&self, key: &C::Key) -> bool {
        self.0.contains_key(key)
    }

    /// Returns an iterator over the keys and values, in slot order.
    ///
    /// ```
    /// # use odht::{configs::U64ToU32, HashTableOwned};
    /// # let mut table = HashTableOwned::<U64ToU32>::default();
    /// table.insert(&1, &2);
    /// assert_eq!(table.iter().collect::<Vec<_>>(), [(1, 2)]);
    /// ```
    #[inline]
    pub fn iter(&self) -> Iter<'_, C> {
        Iter::of(self.raw_bytes(), 0)
    }

    /// Returns an iterator over the keys, in slot order. No value is decoded.
    ///
    /// ```
    /// # use odht::{configs::U64ToU32, HashTableOwned};
    /// let table: HashTableOwned<U64ToU32> = [(1, 2), (3, 4)].into();
    /// assert_eq!(table.keys().sum::<u64>(), 4);
    /// ```
    #[inline]
    pub fn keys(&self) -> Keys<'_, C> {
        Keys::of(self.raw_bytes(), 0)
    }

    /// Returns an iterator over the values, in slot order. No key is decoded.
    ///
    /// ```
    /// # use odht::{configs::U64ToU32, HashTableOwned};
    /// let table: HashTableOwned<U64ToU32> = [(1, 2), (3, 4)].into();
    /// assert_eq!(table.values().max(), Some(4));
    /// ```
    #[inline]
    pub fn values(&self) -> Values<'_, C> {
        Values::of(self.raw_bytes(), 0)
    }

    /// Returns an iterator over the pairs in the slots from `from` on, in slot order. Each item is
    /// the index of a slot, with its key and value. If `from` is past the last slot, the iterator
    /// is empty.
    ///
    /// ```
    /// # use odht::{configs::U64ToU32, HashTableOwned};
    /// # let mut table = HashTableOwned::<U64ToU32>::default();
    /// table.insert(&1, &2);
    /// let (slot, pair) = table.iter_from(0).next().unwrap();
    /// assert_eq!(pair, (1, 2));
    /// assert!(table.iter_from(slot + 1).next().is_none());
    /// ```
    #[inline]
    pub fn iter_from(&self, from: usize) -> Slots<'_, C> {
        Slots::of(self.raw_bytes(), from)
    }

    /// Returns the number of items.
    ///
    /// ```
    /// # use odht::{configs::U64ToU32, HashTableOwned};
    /// # let mut table = HashTableOwned::<U64ToU32>::default();
    /// table.insert(&1, &2);
    /// assert_eq!(table.len(), 1);
    /// ```
    #[inline]
    #[must_use]
    pub fn len(&self) -> usize {
        self.0.len()
    }

    /// Returns `true` if the table has no items.
    ///
    /// ```
    /// # use odht::{configs::U64ToU32, HashTableOwned};
    /// assert!(HashTableOwned::<U64ToU32>::default().is_empty());
    /// ```
    #[inline]
    #[must_use]
    pub fn is_empty(&self) -> bool {
        self.len() == 0
    }

    /// Returns the maximum number of items before the table grows. It follows from the slot count
    /// and the load factor.
    ///
    /// ```
    /// # use odht::{configs::U64ToU32, HashTableOwned};
    /// // of 16 slots 87 percent are 13
    /// assert_eq!(HashTableOwned::<U64ToU32>::new().capacity(), 13);
    /// ```
    #[inline]
    #[must_use]
    pub fn capacity(&self) -> usize {
        let header = Header::of(self.raw_bytes());
        max_item_count_for(header.slot_count(), header.max_load_factor())
    }

    /// Returns the bytes of the table. You can store them as they are.
    ///
    /// ```
    /// # use odht::{configs::U64ToU32, HashTableOwned};
    /// # let mut table = HashTableOwned::<U64ToU32>::default();
    /// assert_eq!(&table.raw_bytes()[..4], b"ODHT");
    /// ```
    #[inline]
    #[must_use]
    pub fn raw_bytes(&self) -> &[u8] {
        self.0.raw_bytes()
    }

    /// Consumes the table and returns its bytes, without copying them.
    ///
    /// ```
    /// # use odht::{configs::U64ToU32, HashTable, HashTableOwned};
    /// let bytes: Vec<u8> = HashTableOwned::<U64ToU32>::from([(1, 2)]).into_raw_bytes();
    /// let view = HashTable::<U64ToU32, _>::try_from_raw_bytes(bytes)?;
    /// assert_eq!(view.get(&1), Some(2));
    /// # Ok::<(), odht::Error>(())
    /// ```
    #[inline]
    #[must_use]
    pub fn into_raw_bytes(self) -> Vec<u8> {
        self.0.into_raw_bytes()
    }

    /// Returns `true` if inserts can have made this table: if some list of inserts, growths
    /// included, makes it from an empty table with the same load factor. Then `out` lists the
    /// occupied slots in such an order: insert their pairs in this order into an empty table with
    /// the same slot count and load factor, and you get exactly these bytes. If it returns `false`,
    /// the contents of `out` are unspecified.
    ///
    /// Allocates nothing. It makes at most `n + 1` passes over the items, if `n` slots must be
    /// listed after one with a higher index.
    ///
    /// ```
    /// # use odht::{configs::U64ToU32, HashTableOwned};
    /// # let mut table = HashTableOwned::<U64ToU32>::with_capacity(3, 95);
    /// table.insert_all(&[(1, 2), (3, 4), (5, 6)]);
    /// let mut slots = vec![0; table.len()];
    /// assert!(table.insert_order(&mut slots));
    ///
    /// let mut again = HashTableOwned::<U64ToU32>::with_capacity(3, 95);
    /// for slot in slots {
    ///     let (_, (key, value)) = table.iter_from(slot).next().unwrap();
    ///     again.insert(&key, &value);
    /// }
    /// assert_eq!(again.raw_bytes(), table.raw_bytes());
    /// ```
    ///
    /// # Panics
    ///
    /// Panics if the length of `out` is not the item count, or if the item count is not the number
    /// of occupied slots. These two differ only in bytes that were opened unchecked.
    #[track_caller]
    #[must_use]
    pub fn insert_order(&self, out: &mut [usize]) -> bool {
        assert_eq!(out.len(), self.len(), "`out` has a number for each item");
        let there = occupied::<C>(self.raw_bytes());
        assert_eq!(there, self.len(), "the item count is that of the occupied slots");
        self.0.insert_order(out)
    }

    /// Like [`insert_order`](HashTableOwned::insert_order), for untrusted tables: it uses `scratch`
    /// as working memory, returns the same result, and writes the same order to `out`. `scratch`
    /// needs at least the length that
    /// [`insert_order_scratch`](HashTableOwned::insert_order_scratch) returns, and may contain any
    /// numbers. With a shorter one this call does what `insert_order` does, in the same time.
    /// Allocates nothing.
    ///
    /// The time is proportional to the number of slots, and to the groups that the longest search
    /// from each home (the slot where it begins) reads. If searches are bounded by `g` groups, it
    /// is proportional to `g` times the slots. If most keys are near their homes, `insert_order` is
    /// faster.
    ///
    /// ```
    /// # use odht::{configs::U64ToU32, HashTableOwned};
    /// # let mut table = HashTableOwned::<U64ToU32>::with_capacity(3, 95);
    /// table.insert_all(&[(1, 2), (3, 4), (5, 6)]);
    /// let mut slots = vec![0; table.len()];
    /// let mut scratch = vec![0; table.insert_order_scratch()];
    /// assert!(table.insert_order_with(&mut slots, &mut scratch));
    /// ```
    ///
    /// # Panics
    ///
    /// Panics when [`insert_order`](HashTableOwned::insert_order) does.
    #[track_caller]
    #[must_use]
    pub fn insert_order_with(&self, out: &mut [usize], scratch: &mut [usize]) -> bool {
        assert_eq!(out.len(), self.len(), "`out` has a number for each item");
        let there = occupied::<C>(self.raw_bytes());
        assert_eq!(there, self.len(), "the item count is that of the occupied slots");
        self.0.insert_order_with(out, scratch)
    }

    /// Returns the length of the scratch that
    /// [`insert_order_with`](HashTableOwned::insert_order_with) needs: three numbers for each slot.
    #[must_use]
    pub fn insert_order_scratch(&self) -> usize {
        self.0.insert_order_scratch()
    }
}
