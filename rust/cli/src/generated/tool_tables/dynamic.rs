// Generated from crates/odht_tool_tables/src/dynamic.rt by make generate.
//! Tables of lengths that are numbers: keys and values are bytes, of lengths that the header
//! states.

use crate::generated::core::failure::Failure;
use crate::generated::core::shapes::Part;
use crate::generated::core::typed::Texts;
use crate::generated::tables::bytes::Borrowed;
use crate::generated::tables::dynamic::{DynTable, Layout};
use crate::generated::tables::error::Error;
use crate::generated::tables::hash::HashFn;
use crate::generated::tables::memory_layout::{check_dynamic, check_dynamic_within, check_opening};
use crate::host::prelude::*;

/// The lengths of keys and values of these types.
pub fn lengths_of(key: Part, value: Part) -> Layout {
    Layout { key_len: key.size(), value_len: value.size() }
}

/// The first rule that the bytes break, as a table of these lengths and of a hash function, the
/// bound of searches among them where there is one. Bytes without an error are valid.
pub fn check_lengths<H: HashFn>(
    layout: Layout,
    bytes: &[u8],
    bound: Option<usize>,
) -> Result<(), Error> {
    check_opening::<H>(bytes, layout)?;
    match bound {
        Some(groups) => check_dynamic_within::<H>(bytes, layout, groups),
        None => check_dynamic::<H>(bytes, layout),
    }
}

/// Opens the bytes as a table of these lengths.
pub fn open_lengths<H: HashFn>(
    layout: Layout,
    bytes: &[u8],
) -> Result<DynTable<H, Borrowed<'_>>, Failure> {
    check_opening::<H>(bytes, layout).map_err(Failure::Refused)?;
    Ok(DynTable::open_unchecked(layout, Borrowed::new(bytes)))
}

/// The table of valid bytes.
pub fn open_valid<H: HashFn>(texts: Texts, bytes: &[u8]) -> DynTable<H, Borrowed<'_>> {
    let layout = lengths_of(texts.key, texts.value);
    DynTable::open_unchecked(layout, Borrowed::new(bytes))
}
