// Generated from crates/odht/src/dynamic/owned.rt by make generate.
//! The table that owns its bytes and grows, with key and value lengths that are known only at run
//! time.

use super::{check_key_len, DynError, DynTable};
use crate::generated::tables::bytes::OwnedBytes;
use crate::generated::tables::error::Error;
use crate::generated::tables::growth::{grown_bytes, room_for};
use crate::generated::tables::hash::HashFn;
use crate::generated::tables::layout::Layout;
use crate::generated::tables::memory_layout::{check_dynamic, check_opening};
use crate::generated::tables::new_tables::new_bytes;
use crate::generated::tables::raw_table::{DynIter, ShortBytes};
use crate::shim::Global;
use alloc::vec::Vec;

/// A table that owns its bytes. The lengths of keys and values are given when it is created. It
/// grows when an absent key is inserted at the maximum. Its bytes are always valid.
///
/// A contract sees it as these lengths and the plain table whose image its bytes are.
pub struct DynTableOwned<H: HashFn> {
    table: DynTable<H, OwnedBytes>,
    alloc: Global,
}

impl<H: HashFn> DynTableOwned<H> {
    /// Creates an empty table with these key and value lengths, which takes at least
    /// `max_item_count` items before it grows, like
    /// [`with_capacity`](crate::generated::tables::hash_table_owned::HashTableOwned::with_capacity). The error is `KeyTooShort` if the hash function
    /// needs longer keys. Otherwise it is `Rejected` with the error of that call.
    pub fn with_capacity(
        alloc: Global,
        layout: Layout,
        max_item_count: usize,
        max_load_factor_percent: u8,
    ) -> Result<Self, DynError> {
        check_key_len::<H>(layout)?;
        match new_bytes::<Layout, H>(alloc, layout, max_item_count, max_load_factor_percent) {
            Ok(bytes) => {
                let table = DynTable::open_unchecked(layout, OwnedBytes::new(bytes));
                Ok(DynTableOwned { table, alloc })
            }
            Err(rejected) => Err(DynError::Rejected(rejected)),
        }
    }

    /// Checks all of the bytes as a table with these key and value lengths, and copies them, like
    /// [`from_raw_bytes`](crate::generated::tables::hash_table_owned::HashTableOwned::from_raw_bytes). The error is `KeyTooShort` if the hash function
    /// needs longer keys. Otherwise it is `Rejected` with the error of that call.
    pub fn from_raw_bytes(
        alloc: Global,
        layout: Layout,
        raw_bytes: &[u8],
    ) -> Result<Self, DynError> {
        check_key_len::<H>(layout)?;
        if let Err(refused) = check_opening::<H>(raw_bytes, layout) {
            return Err(DynError::Rejected(refused));
        }
        if let Err(refused) = check_dynamic::<H>(raw_bytes, layout) {
            return Err(DynError::Rejected(refused));
        }
        let Ok(bytes) = crate::shim::to_vec(raw_bytes, alloc) else {
            return Err(DynError::Rejected(Error::Memory));
        };
        let table = DynTable::open_unchecked(layout, OwnedBytes::new(bytes));
        Ok(DynTableOwned { table, alloc })
    }

    /// The lengths of keys and values.
    #[inline]
    pub fn layout(&self) -> Layout {
        self.table.layout()
    }

    /// The table as one that does not grow.
    #[inline]
    pub fn as_view(&self) -> &DynTable<H, OwnedBytes> {
        &self.table
    }

    /// Returns the value of a key, or `None`. It is the value of the key's last insert, or else the
    /// one in the bytes that were opened. A key of another length has no value.
    /// [`DynTableOwned::get_counted`] counts the groups that such a search reads.
    #[inline]
    pub fn get(&self, key: &[u8]) -> Option<&[u8]> {
        self.table.get(key)
    }

    /// Like `get`, and also returns how many groups of control bytes it read, like
    /// [`DynTable::get_counted`].
    #[inline]
    pub fn get_counted(&self, key: &[u8]) -> (Option<&[u8]>, usize) {
        self.table.get_counted(key)
    }

    /// Whether the key has a value.
    #[inline]
    pub fn contains_key(&self, key: &[u8]) -> bool {
        self.table.contains_key(key)
    }

    /// Gives the key this value, and returns its former one, or None. At the maximum the table
    /// grows for a new key, like
    /// [`HashTableOwned::insert`](crate::generated::tables::hash_table_owned::HashTableOwned::insert). It returns the
    /// first error, and then nothing changes:
    ///
    /// - `WrongKeyLength` if the key has another length than the table's keys.
    /// - `WrongValueLength` if the value has another length than the table's values.
    /// - `Rejected` with the error of that call.
    pub fn insert(&mut self, key: &[u8], value: &[u8]) -> Result<Option<ShortBytes>, DynError> {
        match self.table.insert(key, value) {
            Ok(former) => Ok(former),
            // The table is at its maximum, and the key is absent.
            Err(DynError::Rejected(_)) => self.insert_grown(key, value),
            Err(refused) => Err(refused),
        }
    }

    // `insert` of an absent key of the table's length at the maximum: into the grown table.
    #[inline(never)]
    fn insert_grown(&mut self, key: &[u8], value: &[u8]) -> Result<Option<ShortBytes>, DynError> {
        let layout = self.table.layout();
        let grown = grown_bytes::<Layout, H>(self.alloc, self.table.raw_bytes(), layout);
        let Some(bytes) = grown else {
            return Err(DynError::Rejected(Error::Memory));
        };
        let mut grown = DynTable::open_unchecked(layout, OwnedBytes::new(bytes));
        let former = grown.insert(key, value)?;
        self.table = grown;
        Ok(former)
    }

    /// Makes room for `additional` more items, like
    /// [`HashTableOwned::reserve`](crate::generated::tables::hash_table_owned::HashTableOwned::reserve). The error is
    /// `Rejected` with the error of that call, and then nothing changes.
    pub fn reserve(&mut self, additional: usize) -> Result<(), DynError> {
        let layout = self.table.layout();
        match room_for::<Layout, H>(self.alloc, self.table.raw_bytes(), layout, additional) {
            Ok(None) => Ok(()),
            Ok(Some(moved)) => {
                self.table = DynTable::open_unchecked(layout, OwnedBytes::new(moved));
                Ok(())
            }
            Err(refused) => Err(DynError::Rejected(refused)),
        }
    }

    /// The keys and values, each pair once, in slot order.
    #[inline]
    pub fn iter(&self) -> DynIter<'_, H> {
        self.table.iter()
    }

    /// How many items there are.
    #[inline]
    pub fn len(&self) -> usize {
        self.table.len()
    }

    /// All bytes. They are valid.
    #[inline]
    pub fn raw_bytes(&self) -> &[u8] {
        self.table.raw_bytes()
    }

    /// Consumes the table, and returns its bytes without copying them. They are valid.
    #[inline]
    pub fn into_raw_bytes(self) -> Vec<u8> {
        let DynTableOwned { table, alloc: _ } = self;
        table.into_data().into_vec()
    }
}
