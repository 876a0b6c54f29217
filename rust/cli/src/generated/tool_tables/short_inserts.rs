// Generated from crates/odht_tool_tables/src/short_inserts.rt by make generate.
//! Inserts into a table for as long as its searches are short.

use crate::generated::core::failure::Failure;
use crate::generated::core::stored::StoredTable;
use crate::generated::tables::dynamic::DynTableOwned;
use crate::generated::tables::hash::HashFn;
use crate::generated::tables::raw_table::DynIter;
use crate::host::prelude::*;

/// Inserts the pairs in turn, up to the first whose search would be long. Returns whether there is
/// none.
pub(crate) fn insert_short<S: HashFn, H: HashFn>(
    table: &mut DynTableOwned<H>,
    pairs: DynIter<'_, S>,
) -> Result<bool, Failure> {
    for (key, value) in pairs {
        if is_long_from(table.raw_bytes(), H::hash(key)) {
            return Ok(false);
        }
        if table.insert(key, value).is_err() {
            return Err(Failure::Memory);
        }
    }
    Ok(true)
}

// Whether a search for an absent key of this hash is long in the table of these bytes.
fn is_long_from(bytes: &[u8], hash: u32) -> bool {
    match StoredTable::open(bytes) {
        Ok(table) => table.is_long_from(hash),
        Err(_) => true,
    }
}

/// Whether a search for an absent key may be long in the table of these bytes.
pub(crate) fn has_long_search(bytes: &[u8]) -> bool {
    match StoredTable::open(bytes) {
        Ok(table) => table.has_long_search(),
        Err(_) => true,
    }
}
