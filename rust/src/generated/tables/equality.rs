// Generated from crates/odht/src/equality.rt by make generate.
//! Whether two tables are the same map, and whether they have the same bytes.

use crate::generated::tables::bytes::{ByteArray, ByteStore};
use crate::generated::tables::config::Config;
use crate::generated::tables::hash::HashFn;
use crate::generated::tables::hash_table::HashTable;
use crate::generated::tables::hash_table_owned::HashTableOwned;
use crate::generated::tables::raw_table::{RawIter, RawTable};

impl<C: Config, D: ByteStore> HashTable<C, D> {
    /// Whether this table and another have the same keys with the same values, as bytes, whatever
    /// their slot counts, their load factors and the order of their inserts. Of bytes that are not
    /// valid nothing is said: it may be true of any two.
    ///
    /// Where the item counts differ no key is looked up. Otherwise each key of this table is
    /// looked up in the other, up to the first that is absent there or has another value.
    pub fn is_same_map<E: ByteStore>(&self, other: &HashTable<C, E>) -> bool {
        if self.len() != other.len() {
            return false;
        }
        let (control, entries) = self.allocation.data_slices();
        has_all(&other.as_raw(), RawIter::new(control, entries))
    }

    /// Whether this table and another have the same bytes. Tables that are the same map may differ
    /// in theirs.
    ///
    /// One pass over the bytes, up to the first that differ.
    pub fn has_same_bytes<E: ByteStore>(&self, other: &HashTable<C, E>) -> bool {
        self.raw_bytes() == other.raw_bytes()
    }
}

impl<C: Config> HashTableOwned<C> {
    /// Like [`HashTable::is_same_map`], of two tables whose bytes are valid.
    pub fn is_same_map(&self, other: &HashTableOwned<C>) -> bool {
        self.table.is_same_map(&other.table)
    }

    /// Like [`HashTable::has_same_bytes`].
    pub fn has_same_bytes(&self, other: &HashTableOwned<C>) -> bool {
        self.raw_bytes() == other.raw_bytes()
    }
}

// Whether a table has the key of each item of a walk, with the item's value.
fn has_all<K: ByteArray, V: ByteArray, H: HashFn>(
    table: &RawTable<'_, K, V, H>,
    walk: RawIter<'_, K, V>,
) -> bool {
    for (_, entry) in walk {
        let Some(value) = table.find(&entry.key) else {
            return false;
        };
        if !value.equals(&entry.value) {
            return false;
        }
    }
    true
}
