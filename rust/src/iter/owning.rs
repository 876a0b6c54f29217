//! Iterators that own the table over whose pairs they iterate.

use super::Walk;
use crate::config::Config;
use crate::view::HashTable;
use std::borrow::Borrow;
use std::fmt;
use std::iter::FusedIterator;

macro_rules! owning_walks {
    ($( $(#[$doc:meta])* $name:ident, $item:ty, |$entry:pat_param| $made:expr; )*) => { $(
        $(#[$doc])*
        ///
        /// Each step reads the header and a group of control bytes, so an iteration by reference is
        /// faster. `len` and `size_hint` are exact, and count the rest at each call, as those of
        /// [`Iter`](crate::Iter) do.
        #[must_use = "a walk does nothing until something is taken"]
        pub struct $name<C: Config, D: Borrow<[u8]>> {
            table: HashTable<C, D>,
            // the slot after the last one that was returned
            from: usize,
        }

        impl<C: Config, D: Borrow<[u8]>> $name<C, D> {
            pub(crate) fn of(table: HashTable<C, D>) -> Self {
                $name { table, from: 0 }
            }
        }

        impl<C: Config, D: Borrow<[u8]>> Iterator for $name<C, D> {
            type Item = $item;

            fn next(&mut self) -> Option<Self::Item> {
                let Some((slot, $entry)) = Walk::<C>::of(self.table.bytes(), self.from).next() else {
                    self.from = usize::MAX;
                    return None;
                };
                self.from = slot + 1;
                Some($made)
            }

            fn size_hint(&self) -> (usize, Option<usize>) {
                let left = Walk::<C>::of(self.table.bytes(), self.from).len();
                (left, Some(left))
            }
        }

        impl<C: Config, D: Borrow<[u8]>> ExactSizeIterator for $name<C, D> {}

        impl<C: Config, D: Borrow<[u8]>> FusedIterator for $name<C, D> {}

        impl<C: Config, D: Borrow<[u8]> + Clone> Clone for $name<C, D> {
            fn clone(&self) -> Self {
                $name { table: self.table.clone(), from: self.from }
            }
        }

        impl<C: Config, D: Borrow<[u8]>> fmt::Debug for $name<C, D> {
            fn fmt(&self, f: &mut fmt::Formatter<'_>) -> fmt::Result {
                f.debug_struct(stringify!($name)).finish_non_exhaustive()
            }
        }
    )* };
}

owning_walks! {
    /// An owning iterator over the keys and values of a table, in slot order. Returned by
    /// `into_iter` of [`HashTable`] and [`HashTableOwned`](crate::HashTableOwned).
    IntoIter, (C::Key, C::Value), |entry| (C::decode_key(&entry.key), C::decode_value(&entry.value));

    /// An owning iterator over the keys of a table, in slot order. No value is decoded. Returned by
    /// [`HashTable::into_keys`](crate::HashTable::into_keys) and
    /// [`HashTableOwned::into_keys`](crate::HashTableOwned::into_keys).
    IntoKeys, C::Key, |entry| C::decode_key(&entry.key);

    /// An owning iterator over the values of a table, in slot order. No key is decoded. Returned by
    /// [`HashTable::into_values`](crate::HashTable::into_values) and
    /// [`HashTableOwned::into_values`](crate::HashTableOwned::into_values).
    IntoValues, C::Value, |entry| C::decode_value(&entry.value);
}
