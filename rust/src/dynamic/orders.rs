//! An order of inserts that makes a table.

use super::DynTable;
use crate::config::{Hash, HashFn};
use crate::generated::base::bytes::Borrowed;
use crate::generated::tables::dynamic;
use crate::iter::occupied_in;
use std::borrow::Borrow;

impl<H: HashFn, D: Borrow<[u8]>> DynTable<H, D> {
    /// Returns `true` if inserts can have made this table: if some list of inserts, growths
    /// included, makes it from an empty table with the same load factor. Then `out` lists the
    /// occupied slots in such an order, as
    /// [`HashTableOwned::insert_order`](crate::HashTableOwned::insert_order) does, in the same
    /// number of steps. If it returns `false`, the contents of `out` are unspecified.
    ///
    /// Check the bytes with [`verify`](DynTable::verify) first, unless you know that they are those
    /// of a valid table. For other bytes the result and `out` are unspecified.
    ///
    /// ```
    /// use odht::dynamic::{DynError, DynTable, Layout};
    /// use odht::FxHashFn;
    ///
    /// let layout = Layout { key_len: 3, value_len: 1 };
    /// let empty = || DynTable::<FxHashFn, _>::init_in_place(layout, vec![0; 128], 13, 87);
    /// let mut table = empty()?;
    /// table.insert(b"one", &[1])?;
    /// table.insert(b"two", &[2])?;
    /// let mut slots = vec![0; table.len()];
    /// assert!(table.insert_order(&mut slots));
    ///
    /// let mut again = empty()?;
    /// for slot in slots {
    ///     let (_, (key, value)) = table.iter_from(slot).next().unwrap();
    ///     again.insert(key, value)?;
    /// }
    /// assert_eq!(again.raw_bytes(), table.raw_bytes());
    /// # Ok::<(), DynError>(())
    /// ```
    ///
    /// # Panics
    ///
    /// Panics if the length of `out` is not the item count that the header states, or if this is
    /// not the number of occupied slots. These two differ only in bytes that are not those of a
    /// valid table.
    #[track_caller]
    #[must_use]
    pub fn insert_order(&self, out: &mut [usize]) -> bool {
        self.counted(out.len()).insert_order(out)
    }

    /// Like [`insert_order`](DynTable::insert_order), for untrusted tables: it uses `scratch` as
    /// working memory, returns the same result, and writes the same order to `out`. `scratch` needs
    /// at least the length that [`insert_order_scratch`](DynTable::insert_order_scratch) returns,
    /// and may contain any numbers. With a shorter one this call does what `insert_order` does, in
    /// the same time.
    ///
    /// Check the bytes with [`verify`](DynTable::verify) first, unless you know that they are those
    /// of a valid table. For other bytes the result and `out` are unspecified.
    ///
    /// ```
    /// # use odht::{configs::U64ToU32, dynamic::DynTable, FxHashFn, HashTableOwned};
    /// # let mut table = HashTableOwned::<U64ToU32>::with_capacity(3, 95);
    /// table.insert_all(&[(1, 2), (3, 4), (5, 6)]);
    /// let view = DynTable::<FxHashFn, _>::open_as_stated(table.raw_bytes())?;
    /// let mut slots = vec![0; view.len()];
    /// let mut scratch = vec![0; view.insert_order_scratch()];
    /// assert!(view.insert_order_with(&mut slots, &mut scratch));
    /// # Ok::<(), odht::dynamic::DynError>(())
    /// ```
    ///
    /// # Panics
    ///
    /// Panics when [`insert_order`](DynTable::insert_order) does.
    #[track_caller]
    #[must_use]
    pub fn insert_order_with(&self, out: &mut [usize], scratch: &mut [usize]) -> bool {
        self.counted(out.len()).insert_order_with(out, scratch)
    }

    /// Returns the length of the scratch that [`insert_order_with`](DynTable::insert_order_with)
    /// needs: three numbers for each slot.
    #[must_use]
    pub fn insert_order_scratch(&self) -> usize {
        self.view().insert_order_scratch()
    }

    // The proved table, for a list of this length. The check of the length is all that the search
    // for an order requires, for any bytes.
    #[track_caller]
    fn counted(&self, numbers: usize) -> dynamic::DynTable<Hash<H>, Borrowed<'_>> {
        let table = self.view();
        assert_eq!(numbers, table.len(), "`out` has a number for each item");
        let parts = table.as_dynamic();
        let there = occupied_in(&parts.controls()[..parts.len()]);
        assert_eq!(there, numbers, "the item count is that of the occupied slots");
        table
    }
}
