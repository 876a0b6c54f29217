// Generated from crates/odht_tool_reads/src/bounds.rt by make generate.
//! The bound of searches that `get` and `dump --slots` test before they search.

use crate::generated::core::stored::StoredTable;
use crate::generated::tables::error::Error;
use crate::host::prelude::*;

/// The error of control bytes by which a search may read more groups than the bound. Where header
/// or length do not fit, none: opening tells what is wrong.
pub fn check_bound(bytes: &[u8], bound: Option<usize>) -> Result<(), Error> {
    let Ok(table) = StoredTable::open(bytes) else {
        return Ok(());
    };
    match table.longer_refusal(bound) {
        Some(error) => Err(error),
        None => Ok(()),
    }
}
