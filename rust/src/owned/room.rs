//! Reserving room, shrinking and clearing a table, and inserts of keys that may be present.

use super::{refused, tables, Config, Error, Global, HashTableOwned, Proved};
use crate::encoded::{stored, Stored};
use crate::generated::base::bytes::OwnedBytes;
use crate::generated::raw::memory_layout::{allocate, layout_for, Header};

impl<C: Config> HashTableOwned<C> {
    /// Makes room for `additional` more items, so that inserting this number of new keys does not
    /// grow the table. If the table has the room, nothing changes. Otherwise its items are placed
    /// again, in the fewest slots that suffice for all, at the same load factor.
    ///
    /// ```
    /// use odht::{configs::U64ToU32, HashTableOwned};
    ///
    /// let mut table = HashTableOwned::<U64ToU32>::from([(1, 2), (3, 4)]);
    /// table.reserve(1000);
    /// let bytes = table.raw_bytes().len();
    /// table.extend((10..1010).map(|key| (key, 0)));
    /// assert_eq!((table.len(), table.raw_bytes().len()), (1002, bytes));
    /// ```
    ///
    /// # Panics
    ///
    /// Panics if no table is large enough. If allocation fails, it panics or ends the program, as
    /// Rust's collections do.
    #[track_caller]
    pub fn reserve(&mut self, additional: usize) {
        if let Err(e) = self.try_reserve(additional) {
            let factor = Header::of(self.raw_bytes()).max_load_factor();
            let wanted = self.len().saturating_add(additional);
            let len = layout_for::<Proved<C>>(wanted, factor).map_or(0, |(_, len)| len);
            refused(e, len)
        }
    }

    /// Like [`reserve`](HashTableOwned::reserve), but returns an error if no table is large enough
    /// or allocation fails.
    ///
    /// ```
    /// use odht::{configs::U64ToU32, Error, HashTableOwned};
    ///
    /// let mut table = HashTableOwned::<U64ToU32>::new();
    /// assert_eq!(table.try_reserve(usize::MAX), Err(Error::Capacity));
    /// ```
    ///
    /// # Errors
    ///
    /// - [`Error::Capacity`] if no slot count is large enough, or the length exceeds `usize::MAX`
    /// - [`Error::Memory`] if allocation fails
    ///
    /// On an error nothing changes.
    pub fn try_reserve(&mut self, additional: usize) -> Result<(), Error> {
        self.0.reserve(additional)
    }

    /// Removes all items. The table keeps its slots, load factor and memory, and its bytes become
    /// those of a new table of this size.
    ///
    /// Each byte is written once.
    ///
    /// ```
    /// use odht::{configs::U64ToU32, HashTableOwned};
    ///
    /// let mut table = HashTableOwned::<U64ToU32>::from([(1, 2), (3, 4)]);
    /// table.clear();
    /// assert!(table.is_empty() && table.get(&1).is_none());
    /// assert_eq!(table.raw_bytes(), HashTableOwned::<U64ToU32>::with_capacity(2, 87).raw_bytes());
    /// ```
    pub fn clear(&mut self) {
        self.0.clear();
    }

    /// Shrinks the table to the fewest slots that its items need at the same load factor, and frees
    /// the rest of its memory. The items are placed again, in slot order. If the table has no more
    /// slots than these, nothing changes.
    ///
    /// The cost is one pass over the slots. Each item is hashed once, and the new memory is
    /// allocated before the old is freed.
    ///
    /// ```
    /// use odht::{configs::U64ToU32, HashTableOwned};
    ///
    /// let mut table = HashTableOwned::<U64ToU32>::with_capacity(1000, 87);
    /// table.extend([(1, 2), (3, 4)]);
    /// table.shrink_to_fit();
    /// assert_eq!((table.raw_bytes().len(), table.get(&3)), (256, Some(4)));
    /// ```
    ///
    /// If allocation fails, it panics or ends the program, as Rust's collections do.
    #[track_caller]
    pub fn shrink_to_fit(&mut self) {
        if let Err(e) = self.try_shrink_to_fit() {
            refused(e, self.least_layout().map_or(0, |(_, len)| len))
        }
    }

    /// Like [`shrink_to_fit`](HashTableOwned::shrink_to_fit), but returns an error if allocation
    /// fails.
    ///
    /// ```
    /// use odht::{configs::U64ToU32, HashTableOwned};
    ///
    /// let mut table = HashTableOwned::<U64ToU32>::with_capacity(1000, 87);
    /// table.try_shrink_to_fit()?;
    /// assert_eq!(table.raw_bytes(), HashTableOwned::<U64ToU32>::new().raw_bytes());
    /// # Ok::<(), odht::Error>(())
    /// ```
    ///
    /// # Errors
    ///
    /// [`Error::Memory`] if allocation fails. Nothing changes then.
    pub fn try_shrink_to_fit(&mut self) -> Result<(), Error> {
        let header = Header::of(self.raw_bytes());
        let (slots, factor) = (header.slot_count(), header.max_load_factor());
        let Some((least, _)) = self.least_layout().filter(|(least, _)| *least < slots) else {
            return Ok(());
        };
        let fitting = allocate::<Proved<Stored<C>>>(Global, least, 0, factor)?;
        let mut fitting = tables::HashTable { allocation: fitting };
        for (key, value) in stored::<C>(self.raw_bytes()).iter() {
            fitting.insert(&key, &value)?;
        }
        let bytes = OwnedBytes::new(fitting.into_data().into_vec());
        self.0.table = tables::HashTable::from_raw_bytes_unchecked(bytes);
        Ok(())
    }

    // The fewest slots that suffice for the items, and the length of such a table.
    fn least_layout(&self) -> Option<(usize, usize)> {
        let factor = Header::of(self.raw_bytes()).max_load_factor();
        layout_for::<Proved<C>>(self.len(), factor)
    }

    /// Returns the value of a key. If the key is new, inserts it with `value`, and returns `value`.
    ///
    /// ```
    /// use odht::{configs::U64ToU32, HashTableOwned};
    ///
    /// let mut table = HashTableOwned::<U64ToU32>::from([(1, 2)]);
    /// assert_eq!((table.get_or_insert(&1, 7), table.get_or_insert(&3, 7)), (2, 7));
    /// ```
    ///
    /// # Panics
    ///
    /// Panics when [`insert`](HashTableOwned::insert) does.
    #[track_caller]
    pub fn get_or_insert(&mut self, key: &C::Key, value: C::Value) -> C::Value {
        self.get_or_insert_with(key, || value)
    }

    /// Like [`get_or_insert`](HashTableOwned::get_or_insert), but returns an error if allocation
    /// fails.
    ///
    /// ```
    /// use odht::{configs::U64ToU32, HashTableOwned};
    ///
    /// let mut table = HashTableOwned::<U64ToU32>::new();
    /// assert_eq!(table.try_get_or_insert(&1, 7)?, 7);
    /// # Ok::<(), odht::Error>(())
    /// ```
    ///
    /// # Errors
    ///
    /// Those of [`try_insert`](HashTableOwned::try_insert).
    pub fn try_get_or_insert(&mut self, key: &C::Key, value: C::Value) -> Result<C::Value, Error> {
        self.try_get_or_insert_with(key, || value)
    }

    /// Returns the value of a key. If the key is new, inserts it with the value that `make`
    /// returns, and returns this value.
    ///
    /// It returns the value and not a reference, since the table stores encoded bytes. A present
    /// key costs a lookup, and a new key a lookup and an insert.
    ///
    /// ```
    /// use odht::{configs::U64ToU32, HashTableOwned};
    ///
    /// let mut numbers = HashTableOwned::<U64ToU32>::new();
    /// for name_hash in [70, 80, 70] {
    ///     let next = numbers.len() as u32;
    ///     numbers.get_or_insert_with(&name_hash, || next);
    /// }
    /// assert_eq!((numbers.get(&70), numbers.get(&80), numbers.len()), (Some(0), Some(1), 2));
    /// ```
    ///
    /// # Panics
    ///
    /// Panics when [`insert`](HashTableOwned::insert) does.
    #[track_caller]
    pub fn get_or_insert_with(
        &mut self,
        key: &C::Key,
        make: impl FnOnce() -> C::Value,
    ) -> C::Value {
        if let Some(value) = self.get(key) {
            return value;
        }
        let value = make();
        self.insert(key, &value);
        value
    }

    /// Like [`get_or_insert_with`](HashTableOwned::get_or_insert_with), but returns an error if
    /// allocation fails.
    ///
    /// ```
    /// use odht::{configs::U64ToU32, HashTableOwned};
    ///
    /// let mut numbers = HashTableOwned::<U64ToU32>::new();
    /// assert_eq!(numbers.try_get_or_insert_with(&70, || 1)?, 1);
    /// assert_eq!(numbers.try_get_or_insert_with(&70, || 2)?, 1);
    /// # Ok::<(), odht::Error>(())
    /// ```
    ///
    /// # Errors
    ///
    /// Those of [`try_insert`](HashTableOwned::try_insert).
    pub fn try_get_or_insert_with(
        &mut self,
        key: &C::Key,
        make: impl FnOnce() -> C::Value,
    ) -> Result<C::Value, Error> {
        if let Some(value) = self.get(key) {
            return Ok(value);
        }
        let value = make();
        self.try_insert(key, &value)?;
        Ok(value)
    }
}

impl<C: Config> Extend<(C::Key, C::Value)> for HashTableOwned<C> {
    /// Inserts the items in order. If a key occurs again, the later item overwrites the value. To
    /// insert the items of a slice, pass a reference to it. To insert those of a map without
    /// consuming it, pass `map.iter().map(|(key, value)| (*key, *value))`.
    ///
    /// It reserves no room in advance, so the bytes depend only on the items, and not on the
    /// `size_hint` of the iterator.
    #[track_caller]
    fn extend<I: IntoIterator<Item = (C::Key, C::Value)>>(&mut self, items: I) {
        for (key, value) in items {
            self.insert(&key, &value);
        }
    }
}

impl<'a, C: Config> Extend<&'a (C::Key, C::Value)> for HashTableOwned<C>
where
    C::Key: 'a,
    C::Value: 'a,
{
    /// Inserts items by reference, in order, for example those of a slice. No item is copied.
    ///
    /// ```
    /// use odht::{configs::U64ToU32, HashTableOwned};
    ///
    /// let pairs = vec![(1, 2), (3, 4)];
    /// let mut table = HashTableOwned::<U64ToU32>::new();
    /// table.extend(&pairs);
    /// assert_eq!(table.len(), 2);
    /// ```
    #[track_caller]
    fn extend<I: IntoIterator<Item = &'a (C::Key, C::Value)>>(&mut self, items: I) {
        for (key, value) in items {
            self.insert(key, value);
        }
    }
}
