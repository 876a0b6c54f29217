//! Lookups and inserts of lists.

use super::{DynError, DynTable};
use crate::config::{Hash, HashFn};
use crate::generated::base::bytes::BorrowedMut;
use crate::generated::header::layout::Layout;
use crate::generated::tables::dynamic;
use crate::opened::count_again;
use std::borrow::{Borrow, BorrowMut};

impl<H: HashFn, D: Borrow<[u8]>> DynTable<H, D> {
    /// Looks up many keys, and writes the value of `keys[i]` to `values[i]`. A key of another
    /// length has no value.
    ///
    /// ```
    /// # use odht::{configs::U64ToU32, dynamic::DynTable, FxHashFn, HashTableOwned};
    /// # let mut table = HashTableOwned::<U64ToU32>::default();
    /// # table.insert(&1, &2);
    /// let view = DynTable::<FxHashFn, _>::open_as_stated(table.raw_bytes())?;
    /// let mut values = [None; 3];
    /// view.get_all(&[&1_u64.to_le_bytes(), b"three", &3_u64.to_le_bytes()], &mut values);
    /// assert_eq!(values, [Some(&[2, 0, 0, 0][..]), None, None]);
    /// # Ok::<(), odht::dynamic::DynError>(())
    /// ```
    ///
    /// # Panics
    ///
    /// Panics if `keys` and `values` have different lengths.
    #[track_caller]
    pub fn get_all<'a>(&'a self, keys: &[&[u8]], values: &mut [Option<&'a [u8]>]) {
        assert_eq!(values.len(), keys.len(), "there are as many values as keys");
        for (value, key) in values.iter_mut().zip(keys) {
            *value = self.get(key);
        }
    }
}

impl<H: HashFn, D: Borrow<[u8]> + BorrowMut<[u8]>> DynTable<H, D> {
    /// Inserts the items in order, and stops at the first whose insert fails. Returns the number of
    /// inserted items, and the error of the one that failed. Allocates nothing.
    ///
    /// ```
    /// use odht::dynamic::{DynError, DynTable, Layout};
    /// use odht::FxHashFn;
    ///
    /// let layout = Layout { key_len: 3, value_len: 1 };
    /// let mut table = DynTable::<FxHashFn, _>::init_in_place(layout, vec![0; 128], 13, 87)?;
    /// let items: [(&[u8], &[u8]); 3] = [(b"one", &[1]), (b"two", &[2]), (b"three", &[3])];
    /// let error = DynError::WrongKeyLength { expected: 3, found: 5 };
    /// assert_eq!(table.insert_all(&items), (2, Err(error)));
    /// assert_eq!(table.len(), 2);
    /// # Ok::<(), DynError>(())
    /// ```
    ///
    /// # Errors
    ///
    /// Those of [`insert`](DynTable::insert). The items before the one that failed stay inserted.
    pub fn insert_all(&mut self, items: &[(&[u8], &[u8])]) -> (usize, Result<(), DynError>) {
        let layout = self.layout.proved();
        let list = List { bytes: self.bytes_mut(), layout };
        let store = BorrowedMut::new(&mut *list.bytes);
        let mut view = dynamic::DynTable::<Hash<H>, _>::open_unchecked(layout, store);
        let done = view.insert_all(items);
        std::mem::forget(list);
        done
    }
}

// The bytes of a table while a list is inserted. The item count is written only after the list. If
// the hash function panics within the list, `drop` counts the items that were inserted.
struct List<'b> {
    bytes: &'b mut [u8],
    layout: Layout,
}

impl Drop for List<'_> {
    #[cold]
    fn drop(&mut self) {
        count_again(self.bytes, self.layout);
    }
}
