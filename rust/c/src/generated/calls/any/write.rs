// Generated from crates/odht_calls/src/any/write.rt by make generate.
//! The calls that write a dynamic table.

use super::pieces::{are_pieces, deciding_pairs, Pieces};
use crate::generated::calls::read::header_of;
use crate::generated::calls::status::{status_of, BAD_LENGTHS, OK, REPLACED};
use crate::generated::calls::write::insert_items;
use crate::generated::tables::hash::HashFn;
use crate::generated::tables::layout::Layout;
use crate::generated::tables::memory_layout::insert_dynamic_into;

/// Gives the key this value. A value that it had before is written to `former`. BAD_LENGTHS where
/// the key, the value or `former` has another length than the layout says. An error leaves the
/// bytes and `former` unchanged.
pub fn insert<H: HashFn>(
    layout: Layout,
    bytes: &mut [u8],
    key: &[u8],
    value: &[u8],
    former: &mut [u8],
) -> u32 {
    let value_len = layout.value_len as usize;
    if key.len() != layout.key_len as usize || value.len() != value_len || former.len() != value_len
    {
        return BAD_LENGTHS;
    }
    if let Err(refused) = header_of::<Layout, H>(layout, bytes) {
        return status_of(&refused);
    }
    match insert_dynamic_into::<H>(bytes, layout, key, value, former) {
        Ok(true) => REPLACED,
        Ok(false) => OK,
        Err(refused) => status_of(&refused),
    }
}

/// Inserts `count` pairs in order, up to the first whose insert fails with FULL, and writes to
/// `accepted` how many were inserted. BAD_LENGTHS where the arrays are not for that many keys and
/// values. It and an error of the header or length leave everything unchanged.
// Not inlined, so that the compiler inlines `insert` where it is exported.
#[inline(never)]
pub fn insert_all<H: HashFn>(
    layout: Layout,
    bytes: &mut [u8],
    count: usize,
    keys: &[u8],
    values: &[u8],
    accepted: &mut usize,
) -> u32 {
    if !are_pieces(layout, count, keys, values) {
        return BAD_LENGTHS;
    }
    if let Err(refused) = header_of::<Layout, H>(layout, bytes) {
        return status_of(&refused);
    }
    let deciding = deciding_pairs(layout, count);
    let items = Pieces { layout, count: deciding, keys, values };
    let mut inserted = 0;
    let status = insert_items::<Layout, H, Pieces<'_>>(layout, bytes, items, &mut inserted);
    *accepted = if inserted < deciding { inserted } else { count };
    status
}
