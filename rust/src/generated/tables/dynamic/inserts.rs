// Generated from crates/odht/src/dynamic/inserts.rt by make generate.
//! Inserts into a dynamic table, by one and in lists.

use super::{DynError, DynTable};
use crate::generated::tables::bytes::{ByteStore, ByteStoreMut};
use crate::generated::tables::error::Error;
use crate::generated::tables::hash::HashFn;
use crate::generated::tables::layout::Layout;
use crate::generated::tables::memory_layout::{
    insert_dynamic, insert_dynamic_into, insert_items_dynamic,
};
use crate::generated::tables::raw_table::ShortBytes;

impl<H: HashFn, D: ByteStore> DynTable<H, D> {
    // The error of a key or a value of another length than the table's, that of the key first.
    #[inline(always)]
    pub(super) fn wrong_length(&self, key: &[u8], value: &[u8]) -> Option<DynError> {
        let Layout { key_len, value_len } = self.layout;
        if key.len() != key_len as usize {
            return Some(DynError::WrongKeyLength { expected: key_len, found: key.len() });
        }
        if value.len() != value_len as usize {
            return Some(DynError::WrongValueLength { expected: value_len, found: value.len() });
        }
        None
    }
}

impl<H: HashFn, D: ByteStoreMut> DynTable<H, D> {
    /// Inserts a pair, and returns the former value of the key: on valid bytes the table's value
    /// for the key. It allocates nothing.
    ///
    /// It returns the first error, and then nothing changes:
    ///
    /// - `WrongKeyLength` if the key has another length than the table's keys.
    /// - `WrongValueLength` if the value has another length than the table's values.
    /// - `Rejected` with `Full`, as [`HashTable::insert`](crate::generated::tables::hash_table::HashTable::insert)
    ///   returns it: on valid bytes exactly if the table is at its maximum and the key is absent.
    ///
    /// On bytes that are not valid no more changes than that call changes. The key is hashed once.
    /// [`DynTable::get_counted`] counts the groups that such a search reads.
    pub fn insert(&mut self, key: &[u8], value: &[u8]) -> Result<Option<ShortBytes>, DynError> {
        if let Some(refused) = self.wrong_length(key, value) {
            return Err(refused);
        }
        match insert_dynamic::<H>(self.store.bytes_mut(), self.layout, key, value) {
            Ok(former) => Ok(former),
            Err(refused) => Err(DynError::Rejected(refused)),
        }
    }

    /// Inserts the items, keys and values, in their order, and stops at the first whose insert
    /// fails. Returns how many were accepted, and the error of the one that failed, as
    /// [`DynTable::insert`] returns it: `WrongKeyLength`, `WrongValueLength`, or `Rejected` with
    /// `Full`. The table is then as the accepted ones left it.
    ///
    /// It takes no memory. It costs what
    /// [`HashTable::insert_all`](crate::generated::tables::hash_table::HashTable::insert_all) costs: a search for each
    /// item, and the header is read and the item count written once.
    pub fn insert_all(&mut self, items: &[(&[u8], &[u8])]) -> (usize, Result<(), DynError>) {
        let accepted = insert_items_dynamic::<H>(self.store.bytes_mut(), self.layout, items);
        if accepted >= items.len() {
            return (accepted, Ok(()));
        }
        let (key, value) = items[accepted];
        let refused = match self.wrong_length(key, value) {
            Some(wrong) => wrong,
            None => DynError::Rejected(Error::Full),
        };
        (accepted, Err(refused))
    }

    /// Like [`DynTable::insert`], but writes the former value to `former`, and returns whether there
    /// is one. So no value passes through memory of its own. If `former` has another length than
    /// the table's values, the error is `WrongValueLength`, too. If the key has no value, and on an
    /// error, `former` is unchanged.
    #[inline(always)]
    pub fn insert_into(
        &mut self,
        key: &[u8],
        value: &[u8],
        former: &mut [u8],
    ) -> Result<bool, DynError> {
        if let Some(wrong) = self.wrong_length(key, value) {
            return Err(wrong);
        }
        if let Some(wrong) = self.wrong_length(key, former) {
            return Err(wrong);
        }
        let bytes = self.store.bytes_mut();
        match insert_dynamic_into::<H>(bytes, self.layout, key, value, former) {
            Ok(had) => Ok(had),
            Err(refused) => Err(DynError::Rejected(refused)),
        }
    }
}
