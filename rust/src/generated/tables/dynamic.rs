// Generated from crates/odht/src/dynamic.rt by make generate.
//! Dynamic tables: the lengths of keys and values are known only at run time, for example from a
//! file.

use crate::generated::tables::bytes::ByteStore;
use crate::generated::tables::error::Error;
use crate::generated::tables::hash::HashFn;
pub use crate::generated::tables::layout::Layout;
use crate::generated::tables::memory_layout::{
    self, check_by_header, check_dynamic, check_dynamic_within, check_opening, dynamic_parts,
    Header,
};
pub use crate::generated::tables::prefix::table_len;
pub use crate::generated::tables::raw_table::ShortBytes;
use crate::generated::tables::raw_table::{DynIter, DynRawTable, DynSlots};
use std::marker::PhantomData;

mod file;
mod inserts;
mod owned;

pub use file::{FileError, FileTable};
pub use owned::DynTableOwned;

/// Why bytes cannot be opened as a dynamic table, or why such a table does not accept a pair.
#[derive(Debug, PartialEq, Eq)]
#[non_exhaustive]
pub enum DynError {
    /// The keys are shorter than the hash function needs.
    KeyTooShort {
        /// The length of a key, in bytes.
        key_len: u8,
        /// The minimum length that the hash function needs, in bytes.
        least: usize,
    },
    /// The key is longer or shorter than the keys of the table.
    WrongKeyLength {
        /// The length of a key of the table, in bytes.
        expected: u8,
        /// The length of the key, in bytes.
        found: usize,
    },
    /// The value is longer or shorter than the values of the table.
    WrongValueLength {
        /// The length of a value of the table, in bytes.
        expected: u8,
        /// The length of the value, in bytes.
        found: usize,
    },
    /// The error that a typed table with these lengths would return.
    Rejected(Error),
}

/// A view of a table in the bytes of a store. The lengths of keys and values are given when it is
/// opened, or stated by its header. It cannot grow.
///
/// In contracts its value consists of these lengths and the store.
pub struct DynTable<H: HashFn, D: ByteStore> {
    store: D,
    layout: Layout,
    hash: PhantomData<H>,
}

// The lengths of keys and values that the header at the front of the bytes states, or that they
// are too few for one.
pub(crate) fn stated_layout(bytes: &[u8]) -> Result<Layout, DynError> {
    match memory_layout::stated_layout(bytes) {
        Ok(layout) => Ok(layout),
        Err(rejected) => Err(DynError::Rejected(rejected)),
    }
}

// The error of keys that are shorter than the hash function needs, if these are.
pub(crate) fn check_key_len<H: HashFn>(layout: Layout) -> Result<(), DynError> {
    if (layout.key_len as usize) < H::MIN_LEN {
        return Err(DynError::KeyTooShort { key_len: layout.key_len, least: H::MIN_LEN });
    }
    Ok(())
}

impl<H: HashFn, D: ByteStore> DynTable<H, D> {
    /// Opens bytes as a table with these key and value lengths, or returns the first error. It is
    /// `KeyTooShort` if the hash function needs longer keys. Otherwise it is `Rejected` with the
    /// error that [`HashTable::from_raw_bytes`](crate::generated::tables::hash_table::HashTable::from_raw_bytes)
    /// returns: too few bytes, then an error of the header, of the length, of the first ten slots.
    /// On an error the store is dropped.
    ///
    /// Nothing else is checked. A table of accepted bytes that are not valid is safe to use, but
    /// its calls guarantee only what their clauses state for any bytes.
    pub fn open(layout: Layout, data: D) -> Result<Self, DynError> {
        check_key_len::<H>(layout)?;
        match check_opening::<H>(data.bytes(), layout) {
            Ok(()) => Ok(DynTable::open_unchecked(layout, data)),
            Err(rejected) => Err(DynError::Rejected(rejected)),
        }
    }

    /// Like [`DynTable::open`], with the key and value lengths that the header states.
    /// [`DynTable::layout`] returns them.
    ///
    /// It returns the first error: `Rejected` for too few bytes, the header or the length, then
    /// `KeyTooShort`, then `Rejected` for the first ten slots. On an error the store is dropped.
    ///
    /// The header does not record the hash function. A table that was built with another one is
    /// rejected if the tag of an occupied slot among the first ten does not match.
    pub fn open_as_stated(data: D) -> Result<Self, DynError> {
        let bytes = data.bytes();
        let layout = stated_layout(bytes)?;
        match check_by_header(bytes, layout) {
            Ok(()) => DynTable::open(layout, data),
            Err(rejected) => Err(DynError::Rejected(rejected)),
        }
    }

    /// Opens bytes as a table with these key and value lengths, without a check. The caller ensures
    /// that their header and length fit, and that keys are long enough for the hash function.
    #[inline]
    pub fn open_unchecked(layout: Layout, data: D) -> Self {
        // A slice's length is below 2^64, so that of the store's bytes is too.
        let _ = data.bytes();
        DynTable { store: data, layout, hash: PhantomData }
    }

    /// Returns the lengths of keys and values.
    #[inline]
    pub fn layout(&self) -> Layout {
        self.layout
    }

    /// Returns the value of a key, or `None`. On valid bytes it is the table's value for the key.
    /// On any bytes it is a value that some entry stores with exactly this key. A key of another
    /// length has no value. [`DynTable::get_counted`] counts the groups that such a search reads.
    pub fn get(&self, key: &[u8]) -> Option<&[u8]> {
        if !self.takes(key) {
            return None;
        }
        self.as_dynamic().find(key)
    }

    /// `get` of many keys: the value of each key is written to its index. A key of another length
    /// has no value.
    ///
    /// It takes no memory, and costs a `get` for each key.
    pub fn get_all<'a>(&'a self, keys: &[&[u8]], values: &mut [Option<&'a [u8]>]) {
        for index in 0..keys.len() {
            values[index] = self.get(keys[index]);
        }
    }

    /// Like `get`, and also returns how many groups of control bytes it read, as
    /// [`HashTable::get_counted`](crate::generated::tables::hash_table::HashTable::get_counted) counts them. For a key
    /// of another length no group is read.
    pub fn get_counted(&self, key: &[u8]) -> (Option<&[u8]>, usize) {
        if !self.takes(key) {
            return (None, 0);
        }
        self.as_dynamic().find_counted(key)
    }

    // Whether the key has the length of the table's keys.
    #[inline]
    fn takes(&self, key: &[u8]) -> bool {
        key.len() == self.layout.key_len as usize
    }

    /// Returns whether the key has a value. On any bytes it returns true only if the entry of some
    /// slot contains exactly this key.
    pub fn contains_key(&self, key: &[u8]) -> bool {
        self.get(key).is_some()
    }

    /// Iterates over the keys and values of the slots whose own control byte is below 128, in slot
    /// order. On valid bytes these are the pairs of the table, each once.
    pub fn iter(&self) -> DynIter<'_, H> {
        self.as_dynamic().iter()
    }

    /// Iterates over the pairs in the slots from `from` on, each with its slot, like
    /// [`HashTable::iter_from`](crate::generated::tables::hash_table::HashTable::iter_from).
    pub fn iter_from(&self, from: usize) -> DynSlots<'_, H> {
        self.as_dynamic().iter_from(from)
    }

    /// Returns the item count of the header. On valid bytes it is the number of items.
    #[inline]
    pub fn len(&self) -> usize {
        Header::of(self.raw_bytes()).item_count()
    }

    /// Returns whether the bytes are valid, like
    /// [`HashTable::verify`](crate::generated::tables::hash_table::HashTable::verify).
    /// [`crate::generated::tables::memory_layout::check_dynamic`] returns the error.
    pub fn verify(&self) -> bool {
        check_dynamic::<H>(self.store.bytes(), self.layout).is_ok()
    }

    /// Returns whether the bytes are valid and no search reads more than `groups` groups, like
    /// [`HashTable::verify_within`](crate::generated::tables::hash_table::HashTable::verify_within).
    /// [`crate::generated::tables::memory_layout::check_dynamic_within`] returns the error.
    pub fn verify_within(&self, groups: usize) -> bool {
        check_dynamic_within::<H>(self.store.bytes(), self.layout, groups).is_ok()
    }

    /// Returns whether no search reads more than `groups` groups, by the control bytes, like
    /// [`HashTable::searches_within`](crate::generated::tables::hash_table::HashTable::searches_within).
    pub fn searches_within(&self, groups: usize) -> bool {
        self.as_dynamic().searches_within(groups)
    }

    /// Returns all bytes. Their header and length fit.
    #[inline]
    pub fn raw_bytes(&self) -> &[u8] {
        self.store.bytes()
    }

    /// Returns the store, with the bytes as they are now. Their header and length fit.
    #[inline]
    pub fn into_data(self) -> D {
        let DynTable { store, .. } = self;
        store
    }

    /// Returns the parts of the table. To look up many keys, call this once.
    #[inline]
    pub fn as_dynamic(&self) -> DynRawTable<'_, H> {
        dynamic_parts::<H>(self.store.bytes(), self.layout)
    }
}
