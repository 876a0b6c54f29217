// Generated from crates/odht_calls/src/any/view.rt by make generate.
//! Lookups in opened dynamic tables, which skip the header.

use super::pieces::{are_pieces, piece, put_answer};
use crate::generated::calls::status::{ABSENT, BAD_LENGTHS, OK};
use crate::generated::calls::view::find;
use crate::generated::tables::hash::HashFn;
use crate::generated::tables::layout::Layout;

/// Writes the value of a key of an opened table to `value`. BAD_LENGTHS where the key or `value`
/// has another length than the layout says. It and ABSENT leave `value` unchanged.
#[inline(always)]
pub fn get<H: HashFn>(layout: Layout, bytes: &[u8], key: &[u8], value: &mut [u8]) -> u32 {
    if key.len() != layout.key_len as usize || value.len() != layout.value_len as usize {
        return BAD_LENGTHS;
    }
    match find::<Layout, H>(layout, bytes, key) {
        Some(found) => {
            value.copy_from_slice(found);
            OK
        }
        None => ABSENT,
    }
}

/// OK where the key of an opened table has a value, else ABSENT. BAD_LENGTHS where the key has
/// another length than the layout says.
#[inline(always)]
pub fn contains<H: HashFn>(layout: Layout, bytes: &[u8], key: &[u8]) -> u32 {
    if key.len() != layout.key_len as usize {
        return BAD_LENGTHS;
    }
    match find::<Layout, H>(layout, bytes, key) {
        Some(_) => OK,
        None => ABSENT,
    }
}

/// Looks up `count` keys in an opened table: at the index of a key that is found, its value is
/// written to `values` and 1 to `found`; at any other index 0 is written to `found`. BAD_LENGTHS
/// where the arrays are not for that many keys, values and flags; it leaves both unchanged.
// Not inlined, so that both exports share one loop.
#[inline(never)]
pub fn get_all<H: HashFn>(
    layout: Layout,
    bytes: &[u8],
    count: usize,
    keys: &[u8],
    values: &mut [u8],
    found: &mut [u8],
) -> u32 {
    if !are_pieces(layout, count, keys, values) || found.len() != count {
        return BAD_LENGTHS;
    }
    for index in 0..count {
        let answer = find::<Layout, H>(layout, bytes, piece(keys, layout.key_len, index));
        put_answer(values, found, layout.value_len, index, answer);
    }
    OK
}
