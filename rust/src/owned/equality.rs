//! Whether two tables are the same.

use super::{Config, HashTableOwned};

impl<C: Config> PartialEq for HashTableOwned<C> {
    /// Compares the tables as maps. They are equal if they have the same encoded keys with the same
    /// encoded values. Their slots, their load factors and the order of their inserts do not
    /// matter.
    ///
    /// If the item counts differ, no key is looked up. Otherwise each key of one table is looked up
    /// in the other, up to the first difference.
    ///
    /// ```
    /// use odht::{configs::U64ToU32, HashTableOwned};
    ///
    /// let one = HashTableOwned::<U64ToU32>::from([(1, 2), (3, 4)]);
    /// let mut other = HashTableOwned::<U64ToU32>::with_capacity(100, 50);
    /// other.extend([(3, 4), (1, 2)]);
    /// assert!(one == other && !one.has_same_bytes(&other));
    /// other.insert(&1, &5);
    /// assert!(one != other);
    /// ```
    fn eq(&self, other: &Self) -> bool {
        self.0.is_same_map(&other.0)
    }
}

impl<C: Config> Eq for HashTableOwned<C> {}

impl<C: Config> HashTableOwned<C> {
    /// Returns `true` if the tables have the same bytes. Tables that are equal by `==`, as maps,
    /// may have different bytes.
    ///
    /// ```
    /// use odht::{configs::U64ToU32, HashTableOwned};
    ///
    /// let table = HashTableOwned::<U64ToU32>::from([(1, 2), (3, 4)]);
    /// assert!(table.has_same_bytes(&table.clone()));
    /// ```
    #[must_use]
    pub fn has_same_bytes(&self, other: &Self) -> bool {
        self.0.has_same_bytes(&other.0)
    }
}
