//! Growth of a table into other bytes.

use super::HashTable;
use crate::config::Config;
use std::borrow::Borrow;

impl<C: Config, D: Borrow<[u8]>> HashTable<C, D> {
    /// Returns the length in bytes of the table that this one grows into, or `None` if no table is
    /// that large. The grown table has the slots for twice as many items, and for at least one.
    ///
    /// The item count comes from the header. In unchecked bytes it may be any number. Check the
    /// bytes, or limit the length, before you allocate.
    ///
    /// ```
    /// # use odht::{configs::U64ToU32, HashTable, HashTableOwned};
    /// # let mut table = HashTableOwned::<U64ToU32>::default();
    /// # table.insert(&1, &2);
    /// # let view = HashTable::<U64ToU32, _>::try_from_raw_bytes(table.raw_bytes())?;
    /// assert_eq!(view.grown_len(), Some(256)); // sixteen slots are enough for two items
    /// # Ok::<(), odht::Error>(())
    /// ```
    #[must_use]
    pub fn grown_len(&self) -> Option<usize> {
        self.view().grown_len()
    }

    /// Writes the table that this one grows into to `out`, over any bytes that are there. So a
    /// table in a file or in shared memory can grow too, to the same bytes as a
    /// [`HashTableOwned`](crate::HashTableOwned).
    ///
    /// The cost is one pass over `out` and one over the slots of this table. Each item is hashed
    /// once.
    ///
    /// ```
    /// # use odht::{configs::U64ToU32, HashTable, HashTableOwned};
    /// # let mut table = HashTableOwned::<U64ToU32>::from_iterator((0..13).map(|n| (n, 0)), 87);
    /// let view = HashTable::<U64ToU32, _>::try_from_raw_bytes(table.raw_bytes())?;
    /// let mut grown = vec![0; view.grown_len().ok_or(odht::Error::Capacity)?];
    /// view.grow_into(&mut grown);
    ///
    /// let mut grown = HashTable::<U64ToU32, _>::try_from_raw_bytes(&mut grown[..])?;
    /// grown.insert(&100, &7);
    /// assert_eq!((grown.len(), grown.get(&12)), (14, Some(0)));
    /// # Ok::<(), odht::Error>(())
    /// ```
    ///
    /// # Panics
    ///
    /// Panics if the length of `out` is not [`grown_len`](HashTable::grown_len).
    #[track_caller]
    pub fn grow_into(&self, out: &mut [u8]) {
        let view = self.view();
        assert_eq!(view.grown_len(), Some(out.len()), "`out` is as long as the grown table");
        view.grow_into(out);
    }
}
