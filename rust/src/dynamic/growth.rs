//! Growth of a table into other bytes.

use super::DynTable;
use crate::config::HashFn;
use std::borrow::Borrow;

impl<H: HashFn, D: Borrow<[u8]>> DynTable<H, D> {
    /// Returns the length in bytes of the table that this one grows into, or `None` if no table is
    /// that large. The grown table has the slots for twice as many items, and for at least one.
    ///
    /// The item count comes from the header. In unchecked bytes it may be any number. Check the
    /// bytes, or limit the length, before you allocate.
    #[must_use]
    pub fn grown_len(&self) -> Option<usize> {
        self.view().grown_len()
    }

    /// Writes the table that this one grows into to `out`, over any bytes that are there. The
    /// result has the bytes that a [`HashTableOwned`](crate::HashTableOwned) with these key and
    /// value lengths grows to.
    ///
    /// The cost is one pass over `out` and one over the slots of this table. Each item is hashed
    /// once.
    ///
    /// ```
    /// use odht::dynamic::{DynError, DynTable, Layout};
    /// use odht::{Error, FxHashFn};
    ///
    /// let layout = Layout { key_len: 1, value_len: 1 };
    /// let mut table = DynTable::<FxHashFn, _>::init_in_place(layout, vec![0; 96], 13, 87)?;
    /// for n in 0..100 {
    ///     if table.insert(&[n], &[n]) == Err(DynError::Rejected(Error::Full)) {
    ///         let len = table.grown_len().ok_or(DynError::Rejected(Error::Capacity))?;
    ///         let mut grown = vec![0; len];
    ///         table.grow_into(&mut grown);
    ///         table = DynTable::open(layout, grown)?;
    ///         table.insert(&[n], &[n])?;
    ///     }
    /// }
    /// assert_eq!((table.len(), table.get(&[99])), (100, Some(&[99][..])));
    /// # Ok::<(), DynError>(())
    /// ```
    ///
    /// # Panics
    ///
    /// Panics if the length of `out` is not [`grown_len`](DynTable::grown_len).
    #[track_caller]
    pub fn grow_into(&self, out: &mut [u8]) {
        let view = self.view();
        assert_eq!(view.grown_len(), Some(out.len()), "`out` is as long as the grown table");
        view.grow_into(out);
    }
}
