// Generated from crates/odht/src/hash_table_owned.rt by make generate.
//! The table that owns its bytes, and grows.

use crate::generated::tables::bytes::OwnedBytes;
use crate::generated::tables::config::Config;
use crate::generated::tables::error::Error;
use crate::generated::tables::growth::{grown_bytes, room_for};
use crate::generated::tables::hash_table::HashTable;
use crate::generated::tables::iter::Iter;
use crate::generated::tables::layout::Fixed;
use crate::generated::tables::memory_layout;
use crate::generated::tables::new_tables::new_bytes;
use crate::shim::Global;
use alloc::vec::Vec;

mod dump;
mod lists;

/// A table that owns its bytes, and grows when an absent key is inserted at the maximum. Its bytes
/// are always valid. In contracts its value is the table that they store.
pub struct HashTableOwned<C: Config> {
    pub(crate) table: HashTable<C, OwnedBytes>,
    alloc: Global,
}

impl<C: Config> HashTableOwned<C> {
    /// Creates an empty table that takes at least `max_item_count` items before it grows. The load
    /// factor is in percent of the slots. docs/FORMAT.md, "Load factors", specifies the rule.
    ///
    /// The error is `Capacity` exactly if no slot count is large enough, or the length exceeds
    /// `usize::MAX`. It is `Memory` if allocation fails.
    pub fn with_capacity(
        alloc: Global,
        max_item_count: usize,
        max_load_factor_percent: u8,
    ) -> Result<Self, Error> {
        let lengths: Fixed<C::EncodedKey, C::EncodedValue> = Fixed::new();
        let bytes = new_bytes::<Fixed<C::EncodedKey, C::EncodedValue>, C::H>(
            alloc,
            lengths,
            max_item_count,
            max_load_factor_percent,
        )?;
        let table = HashTable::from_raw_bytes_unchecked(OwnedBytes::new(bytes));
        Ok(HashTableOwned { table, alloc })
    }

    /// Creates an empty table for twelve items. It has sixteen slots and a load factor of 87
    /// percent, so its maximum is thirteen items.
    ///
    /// The error is `Memory` if allocation fails.
    pub fn default(alloc: Global) -> Result<Self, Error> {
        Self::with_capacity(alloc, 12, 87)
    }

    /// Creates a table of the items. It collects them first and creates a table for their number,
    /// which therefore does not grow. If a key occurs again, the later item overwrites the value.
    /// The load factor is in percent of the slots.
    ///
    /// `items` must end (`ends`), and calling its `next` must be allowed (`can`). In the clauses,
    /// `xs` is the list of the items that it returns until then (`EndsAfter`).
    ///
    /// The error is `Capacity` only if no slot count is large enough for the items, or the length
    /// exceeds `usize::MAX`. It is `Memory` if allocation fails.
    pub fn from_iterator<I: Iterator<Item = (C::Key, C::Value)>>(
        alloc: Global,
        items: I,
        max_load_factor_percent: u8,
    ) -> Result<Self, Error> {
        let items: Vec<(C::Key, C::Value)> = crate::shim::collect(items, alloc)?;
        let mut table = Self::with_capacity(alloc, items.len(), max_load_factor_percent)?;
        table.insert_all(items.as_slice()).1?;
        Ok(table)
    }

    /// Returns the value of a key, or `None`. It is the value of the key's last insert, or else the
    /// one in the bytes that were opened. [`HashTableOwned::get_counted`] counts the groups that
    /// such a search reads.
    #[inline]
    pub fn get(&self, key: &C::Key) -> Option<C::Value> {
        self.table.get(key)
    }

    /// Looks up many keys: writes the value of each key to its index, like [`HashTable::get_all`].
    #[inline]
    pub fn get_all(&self, keys: &[C::Key], values: &mut [Option<C::Value>]) {
        self.table.get_all(keys, values);
    }

    /// Like `get`, and also returns how many groups of control bytes it read: the groups up to the
    /// first slot of the key's probe order that is free or contains the key.
    #[inline]
    pub fn get_counted(&self, key: &C::Key) -> (Option<C::Value>, usize) {
        self.table.get_counted(key)
    }

    /// Returns whether the key has a value.
    #[inline]
    pub fn contains_key(&self, key: &C::Key) -> bool {
        self.table.contains_key(key)
    }

    /// Iterates over the keys and values, each pair once, in slot order.
    #[inline]
    pub fn iter(&self) -> Iter<'_, C> {
        self.table.iter()
    }

    /// Returns the number of items.
    #[inline]
    pub fn len(&self) -> usize {
        self.table.len()
    }

    /// Returns all bytes. They are valid.
    #[inline]
    pub fn raw_bytes(&self) -> &[u8] {
        self.table.raw_bytes()
    }

    /// Consumes the table, and returns its bytes without copying them. They are valid.
    #[inline]
    pub fn into_raw_bytes(self) -> Vec<u8> {
        let HashTableOwned { table, alloc: _ } = self;
        table.into_data().into_vec()
    }

    /// Checks all of the bytes, and copies them into a new table. An error of
    /// [`memory_layout::check_all`] is returned before anything is allocated. Valid bytes are never
    /// rejected. The check costs what that call costs.
    ///
    /// The error is `Memory` if allocation fails.
    pub fn from_raw_bytes(alloc: Global, raw_bytes: &[u8]) -> Result<Self, Error> {
        memory_layout::check_all::<C>(raw_bytes)?;
        Self::from_raw_bytes_unchecked(alloc, raw_bytes)
    }

    /// Like `from_raw_bytes`, for untrusted bytes. Like [`memory_layout::check_all_within`], it
    /// also rejects bytes in which a search may read more than `groups` groups of control bytes.
    /// The check costs what that call costs.
    ///
    /// The error is `Memory` if allocation fails.
    pub fn from_raw_bytes_within(
        alloc: Global,
        raw_bytes: &[u8],
        groups: usize,
    ) -> Result<Self, Error> {
        memory_layout::check_all_within::<C>(raw_bytes, groups)?;
        Self::from_raw_bytes_unchecked(alloc, raw_bytes)
    }

    /// Copies the bytes into a new table without a check. The caller ensures that they are valid.
    ///
    /// The error is `Memory` if allocation fails.
    pub fn from_raw_bytes_unchecked(alloc: Global, raw_bytes: &[u8]) -> Result<Self, Error> {
        let bytes = crate::shim::to_vec(raw_bytes, alloc)?;
        let table = HashTable::from_raw_bytes_unchecked(OwnedBytes::new(bytes));
        Ok(HashTableOwned { table, alloc })
    }

    /// Takes all items out: leaves the empty table of as many slots and the same load factor, to
    /// the last byte that of a new table of this size.
    ///
    /// It takes no memory and gives none back. Each byte is written once.
    pub fn clear(&mut self) {
        self.table.allocation.clear();
    }

    /// Copies the table. The copy has the same bytes.
    ///
    /// The error is `Memory` if allocation fails.
    pub fn clone(&self) -> Result<Self, Error> {
        Self::from_raw_bytes_unchecked(self.alloc, self.table.raw_bytes())
    }

    /// Inserts a pair, and returns the former value of the key, or `None`. If the key is absent and
    /// the table is at its maximum, the table grows. A present key gets the new value in place,
    /// which allocates nothing. docs/FORMAT.md, "Insert" and "Growth", specifies the rules.
    ///
    /// The only error is `Memory`, and only if the key is absent and the table is at its maximum.
    /// Then nothing changes. It is returned if allocation fails, or if the grown table would exceed
    /// 2^63 slots or `usize::MAX` bytes. The contract does not rule out other causes.
    ///
    /// The key is hashed once. If the table grows, all items are hashed and placed again, and the
    /// key is hashed again.
    #[inline(always)]
    pub fn insert(&mut self, key: &C::Key, value: &C::Value) -> Result<Option<C::Value>, Error> {
        match self.table.insert(key, value) {
            Ok(old) => Ok(old),
            // The error is `Full`: the table is at its maximum, and the key is absent.
            Err(_) => self.insert_grown(key, value),
        }
    }

    /// Makes room for `additional` more items: that many new keys can be inserted before the table
    /// grows. Where it has the room nothing changes, and no memory is asked for. Otherwise the
    /// pairs are placed in slot order into the least slot count that is enough for as many items
    /// as there are and `additional` more, at the same load factor, as at a growth.
    ///
    /// Where the room is lacking, `Capacity` exactly where no slot count is enough, or the length
    /// passes `usize`; otherwise `Memory` where the allocator gives none. On an error nothing
    /// changes.
    ///
    /// Where it moves, one pass over the slots; each item is hashed once. No key is compared.
    pub fn reserve(&mut self, additional: usize) -> Result<(), Error> {
        let lengths: Fixed<C::EncodedKey, C::EncodedValue> = Fixed::new();
        let bytes = self.table.raw_bytes();
        match room_for::<Fixed<C::EncodedKey, C::EncodedValue>, C::H>(
            self.alloc, bytes, lengths, additional,
        ) {
            Ok(None) => Ok(()),
            Ok(Some(moved)) => {
                self.table = HashTable::from_raw_bytes_unchecked(OwnedBytes::new(moved));
                Ok(())
            }
            Err(refused) => Err(refused),
        }
    }

    // `insert` of an absent key at the maximum: into the grown table.
    #[inline(never)]
    fn insert_grown(&mut self, key: &C::Key, value: &C::Value) -> Result<Option<C::Value>, Error> {
        let lengths: Fixed<C::EncodedKey, C::EncodedValue> = Fixed::new();
        let bytes = self.table.raw_bytes();
        let Some(bytes) =
            grown_bytes::<Fixed<C::EncodedKey, C::EncodedValue>, C::H>(self.alloc, bytes, lengths)
        else {
            return Err(Error::Memory);
        };
        let mut grown = HashTable::from_raw_bytes_unchecked(OwnedBytes::new(bytes));
        let Ok(old) = grown.insert(key, value) else {
            // The grown table is below its maximum.
            unreachable!()
        };
        self.table = grown;
        Ok(old)
    }
}
