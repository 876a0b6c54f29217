// Generated from crates/odht/src/hash_table_owned/lists.rt by make generate.
//! Lists of inserts into the table that grows, and of what an iterator gives.

use super::HashTableOwned;
use crate::generated::tables::config::Config;
use crate::generated::tables::error::Error;
use crate::generated::tables::items::Items;
use alloc::vec::Vec;

impl<C: Config> HashTableOwned<C> {
    /// Inserts the items in their order, and stops at the first whose insert fails. Returns how
    /// many were accepted, and `Memory` where one failed. The table is then as the accepted ones
    /// left it, at its maximum, and the key of the item that failed is absent.
    ///
    /// A fresh table that accepted all has the items' last values; one made for as many as there
    /// are has not grown.
    pub fn insert_all(&mut self, items: &[(C::Key, C::Value)]) -> (usize, Result<(), Error>) {
        self.insert_items(&items)
    }

    /// `insert_all` of the items of an iterator, which are collected first. Returns how many were
    /// accepted, and `Memory` where there was none for the list, with none accepted and nothing
    /// changed, or where an insert failed, as `insert_all` leaves it.
    pub fn extend<I: Iterator<Item = (C::Key, C::Value)>>(
        &mut self,
        items: I,
    ) -> (usize, Result<(), Error>) {
        let collected: Result<Vec<(C::Key, C::Value)>, _> = crate::shim::collect(items, self.alloc);
        let Ok(items) = collected else {
            return (0, Err(Error::Memory));
        };
        self.insert_all(items.as_slice())
    }

    /// `insert_all` of items in any form, such as [`Zipped`](crate::generated::tables::items::Zipped).
    #[inline(always)]
    pub fn insert_items<I: Items<C::Key, C::Value>>(
        &mut self,
        items: &I,
    ) -> (usize, Result<(), Error>) {
        let _ = &self.table;
        let mut accepted = 0;
        loop {
            accepted = self.table.allocation.insert_items(items, accepted);
            if accepted >= items.count() {
                return (accepted, Ok(()));
            }
            // The table is at its maximum, and this key is absent.
            let (key, value) = items.at(accepted);
            if let Err(refused) = self.insert_grown(key, value) {
                return (accepted, Err(refused));
            }
            accepted += 1;
        }
    }
}
