// Generated from crates/odht_tool_writes/src/starts.rt by make generate.
//! The table that lines are added to, as it is at first: an empty one, or that of a file.

use crate::generated::core::failure::Failure;
use crate::generated::tables::config::Config;
use crate::generated::tables::dynamic::{DynError, DynTableOwned, Layout};
use crate::generated::tables::hash::HashFn;
use crate::generated::tables::load::Percent;
use crate::generated::tables::HashTableOwned;
use crate::generated::tool_tables::dynamic::check_lengths;
use crate::host::prelude::*;
use crate::shim::Global;

/// An empty table of a configuration, for that many items.
pub fn make_table<C: Config>(
    alloc: Global,
    capacity: usize,
    percent: Percent,
) -> Result<HashTableOwned<C>, Failure> {
    HashTableOwned::with_capacity(alloc, capacity, percent.value()).map_err(Failure::of_table)
}

/// An empty table of these lengths, for that many items.
pub fn make_lengths<H: HashFn>(
    alloc: Global,
    layout: Layout,
    capacity: usize,
    percent: Percent,
) -> Result<DynTableOwned<H>, Failure> {
    match DynTableOwned::with_capacity(alloc, layout, capacity, percent.value()) {
        Ok(table) => Ok(table),
        Err(DynError::KeyTooShort { key_len, least: _ }) => {
            Err(Failure::ShortKeys { key_size: key_len })
        }
        Err(DynError::Rejected(error)) => Err(Failure::of_table(error)),
        // The others are errors of inserts.
        Err(_) => Err(Failure::Memory),
    }
}

/// The table of these bytes of a configuration. They are checked whole before, with the bound of
/// searches where there is one, and freed once the table has a copy.
pub fn copy_table<C: Config>(
    alloc: Global,
    bytes: Vec<u8>,
    bound: Option<usize>,
) -> Result<HashTableOwned<C>, Failure> {
    let bytes = bytes.as_slice();
    check_lengths::<C::H>(Layout::of::<C>(), bytes, bound).map_err(Failure::Refused)?;
    HashTableOwned::from_raw_bytes_unchecked(alloc, bytes).map_err(Failure::of_table)
}

/// The same of bytes of these lengths.
pub fn copy_lengths<H: HashFn>(
    alloc: Global,
    layout: Layout,
    bytes: Vec<u8>,
    bound: Option<usize>,
) -> Result<DynTableOwned<H>, Failure> {
    let bytes = bytes.as_slice();
    check_lengths::<H>(layout, bytes, bound).map_err(Failure::Refused)?;
    // The bytes are valid, so only an allocation can fail.
    DynTableOwned::from_raw_bytes(alloc, layout, bytes).map_err(|_| Failure::Memory)
}
