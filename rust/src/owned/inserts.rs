//! Inserts into the owned table.

use super::{refused, tables, Config, Error, Global, HashTableOwned, Proved};
use crate::generated::base::bytes::Borrowed;
use crate::generated::header::layout::Layout;
use crate::opened::count_again;
use crate::shim::to_vec;

impl<C: Config> HashTableOwned<C> {
    /// Inserts a pair, and returns the former value of the key. If the key is new and the table is
    /// at its maximum, the table grows to the slots for twice as many items. A growth hashes and
    /// places each item again.
    ///
    /// The key is hashed once, and each group of control bytes is read at most once.
    ///
    /// ```
    /// # use odht::{configs::U64ToU32, HashTableOwned};
    /// # let mut table = HashTableOwned::<U64ToU32>::default();
    /// assert_eq!(table.insert(&1, &2), None);
    /// assert_eq!(table.insert(&1, &5), Some(2));
    /// ```
    ///
    /// # Panics
    ///
    /// Panics if the grown table would be too large. If allocation fails, it panics or ends the
    /// program, as Rust's collections do.
    // Always inlined, so that the location of the caller, which a panic reports, is not passed to
    // the insert itself.
    #[inline(always)]
    #[track_caller]
    pub fn insert(&mut self, key: &C::Key, value: &C::Value) -> Option<C::Value> {
        match self.try_insert(key, value) {
            Ok(former) => former,
            Err(e) => self.cannot_grow(e),
        }
    }

    /// Like [`insert`](HashTableOwned::insert), but returns an error if allocation fails.
    ///
    /// ```
    /// # use odht::{configs::U64ToU32, HashTableOwned};
    /// # let mut table = HashTableOwned::<U64ToU32>::default();
    /// assert_eq!(table.try_insert(&1, &2)?, None);
    /// # Ok::<(), odht::Error>(())
    /// ```
    ///
    /// # Errors
    ///
    /// [`Error::Memory`] if the table would grow, and allocation fails or the grown table would be
    /// too large. Nothing changes then.
    #[inline]
    pub fn try_insert(
        &mut self,
        key: &C::Key,
        value: &C::Value,
    ) -> Result<Option<C::Value>, Error> {
        self.0.insert(key, value)
    }

    /// Inserts all items in order. This is faster than a loop of `insert`. The header is read and
    /// written only once for the list and once for each growth, and in a large table the loads of
    /// eight keys overlap.
    ///
    /// ```
    /// # use odht::{configs::U64ToU32, HashTableOwned};
    /// # let mut table = HashTableOwned::<U64ToU32>::default();
    /// table.insert_all(&[(1, 2), (3, 4), (1, 5)]);
    /// assert_eq!((table.len(), table.get(&1)), (2, Some(5)));
    /// ```
    ///
    /// # Panics
    ///
    /// Panics when [`insert`](HashTableOwned::insert) does.
    #[track_caller]
    pub fn insert_all(&mut self, items: &[(C::Key, C::Value)]) {
        if let (_, Err(e)) = self.try_insert_all(items) {
            self.cannot_grow(e)
        }
    }

    /// Like [`insert_all`](HashTableOwned::insert_all), but stops at the first item whose insert
    /// fails. Returns the number of inserted items, and the error.
    ///
    /// ```
    /// # use odht::{configs::U64ToU32, HashTableOwned};
    /// # let mut table = HashTableOwned::<U64ToU32>::default();
    /// assert_eq!(table.try_insert_all(&[(1, 2), (3, 4), (1, 5)]), (3, Ok(())));
    /// ```
    ///
    /// # Errors
    ///
    /// [`Error::Memory`], as [`try_insert`](HashTableOwned::try_insert) returns it. The items
    /// before the one that failed stay inserted.
    pub fn try_insert_all(&mut self, items: &[(C::Key, C::Value)]) -> (usize, Result<(), Error>) {
        let list = List(self);
        let done = list.0 .0.insert_all(items);
        std::mem::forget(list);
        done
    }

    /// Like `extend`, but returns an error if allocation fails. It collects the items first, and
    /// then inserts them like [`insert_all`](HashTableOwned::insert_all). Returns the number of
    /// inserted items, and the error.
    ///
    /// ```
    /// # use odht::{configs::U64ToU32, HashTableOwned};
    /// # let mut table = HashTableOwned::<U64ToU32>::default();
    /// assert_eq!(table.try_extend([(1, 2), (3, 4), (1, 5)]), (3, Ok(())));
    /// assert_eq!((table.len(), table.get(&1)), (2, Some(5)));
    /// ```
    ///
    /// # Errors
    ///
    /// [`Error::Memory`] if allocating the list fails, with nothing inserted. Otherwise those of
    /// [`try_insert_all`](HashTableOwned::try_insert_all).
    pub fn try_extend<I: IntoIterator<Item = (C::Key, C::Value)>>(
        &mut self,
        items: I,
    ) -> (usize, Result<(), Error>) {
        let list = List(self);
        let done = list.0 .0.extend(items.into_iter());
        std::mem::forget(list);
        done
    }

    // Ends an insert whose growth failed.
    #[cold]
    #[track_caller]
    pub(super) fn cannot_grow(&self, error: Error) -> ! {
        let bytes = Borrowed::new(self.raw_bytes());
        let table = tables::HashTable::<Proved<C>, _>::from_raw_bytes_unchecked(bytes);
        refused(error, table.grown_len().unwrap_or(0))
    }
}

// A table while a list is inserted. Its item count is written only after the list. If the
// configuration's code panics within the list, `drop` counts the items that were inserted.
struct List<'t, C: Config>(&'t mut HashTableOwned<C>);

impl<C: Config> Drop for List<'_, C> {
    #[cold]
    fn drop(&mut self) {
        let Ok(mut bytes) = to_vec(self.0.raw_bytes(), Global) else { return };
        count_again(&mut bytes, Layout::of::<Proved<C>>());
        if let Ok(table) = tables::HashTableOwned::from_raw_bytes_unchecked(Global, &bytes) {
            self.0 .0 = table;
        }
    }
}
