// Generated from crates/odht/src/laws/dynamic.rt by make generate.
//! A typed table and one whose lengths are known only at run time, over the same bytes, agree.

use crate::generated::tables::bytes::{ByteArray, ByteStore};
use crate::generated::tables::config::Config;
use crate::generated::tables::dynamic::DynTable;
use crate::generated::tables::hash_table::HashTable;
use crate::generated::tables::iter::Iter;
use crate::generated::tables::raw_table::DynIter;

/// What both tables have for a key: the first the value, the second its bytes. On valid bytes
/// these bytes decode to that value, or both have none.
///
/// It costs a `get` of each.
pub fn same_value<'a, C: Config, D: ByteStore, E: ByteStore>(
    typed: &HashTable<C, D>,
    dynamic: &'a DynTable<C::H, E>,
    key: &C::Key,
) -> (Option<C::Value>, Option<&'a [u8]>) {
    let bytes = C::encode_key(key);
    let found = dynamic.get(bytes.as_slice());
    (typed.get(key), found)
}

/// The item counts of both tables: they are the same, on any bytes.
pub fn same_len<C: Config, D: ByteStore, E: ByteStore>(
    typed: &HashTable<C, D>,
    dynamic: &DynTable<C::H, E>,
) -> (usize, usize) {
    (typed.len(), dynamic.len())
}

/// The walks over both tables: on any bytes the first gives what the pairs of the second decode
/// to, in the same order.
pub fn same_walk<'a, C: Config, D: ByteStore, E: ByteStore>(
    typed: &'a HashTable<C, D>,
    dynamic: &'a DynTable<C::H, E>,
) -> (Iter<'a, C>, DynIter<'a, C::H>) {
    (typed.iter(), dynamic.iter())
}
