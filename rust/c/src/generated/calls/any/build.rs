// Generated from crates/odht_calls/src/any/build.rt by make generate.
//! Dynamic tables that are built from pairs: in the caller's bytes, or in memory of their
//! own and then copied to the caller's.

use super::pieces::{are_pieces, deciding_pairs, piece};
use super::write::insert_all;
use crate::generated::calls::build::hand_out;
use crate::generated::calls::status::{BAD_LENGTHS, BAD_PERCENT, CAPACITY, MEMORY, OK, TOO_SMALL};
use crate::generated::calls::write::init;
use crate::generated::tables::bytes::Borrowed;
use crate::generated::tables::dynamic::{DynTable, DynTableOwned};
use crate::generated::tables::hash::HashFn;
use crate::generated::tables::layout::Layout;
use crate::generated::tables::load::Percent;
use crate::shim::Global;

/// Builds a table of `count` pairs at the front of `out`, with slots for as many items as there
/// are pairs, and writes its length in bytes to `len`. BAD_LENGTHS, BAD_PERCENT and CAPACITY leave
/// both unchanged, TOO_SMALL leaves `out` unchanged. Allocates nothing.
pub fn build<H: HashFn>(
    layout: Layout,
    count: usize,
    keys: &[u8],
    values: &[u8],
    max_load_factor_percent: u8,
    out: &mut [u8],
    len: &mut usize,
) -> u32 {
    if !are_pieces(layout, count, keys, values) {
        return BAD_LENGTHS;
    }
    let Some(percent) = Percent::new(max_load_factor_percent) else {
        return BAD_PERCENT;
    };
    let percent = percent.value();
    let Some(needed) = DynTable::<H, Borrowed<'_>>::bytes_needed(layout, count, percent) else {
        return CAPACITY;
    };
    *len = needed;
    if out.len() < needed {
        return TOO_SMALL;
    }
    // There is room for each pair.
    let table = &mut out[..needed];
    let mut accepted = 0;
    let _ = init::<Layout, H>(layout, table, count, percent);
    let _ = insert_all::<H>(layout, table, count, keys, values, &mut accepted);
    OK
}

/// Builds a table of `count` pairs in memory of its own, which starts with sixteen slots at 87
/// percent and grows, and copies it to the front of `out`. BAD_LENGTHS and MEMORY leave `out` and
/// `len` unchanged, TOO_SMALL leaves `out` unchanged.
pub fn build_growing<H: HashFn>(
    layout: Layout,
    alloc: Global,
    count: usize,
    keys: &[u8],
    values: &[u8],
    out: &mut [u8],
    len: &mut usize,
) -> u32 {
    if !are_pieces(layout, count, keys, values) {
        return BAD_LENGTHS;
    }
    // Sixteen slots are never too many, so the only error is that there is no memory.
    let mut table = match DynTableOwned::<H>::with_capacity(alloc, layout, 12, 87) {
        Ok(table) => table,
        Err(_refused) => return MEMORY,
    };
    let deciding = deciding_pairs(layout, count);
    for index in 0..deciding {
        let key = piece(keys, layout.key_len, index);
        let value = piece(values, layout.value_len, index);
        if let Err(_refused) = table.insert(key, value) {
            return MEMORY;
        }
    }
    hand_out(table.raw_bytes(), out, len)
}
