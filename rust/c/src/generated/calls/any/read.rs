// Generated from crates/odht_calls/src/any/read.rt by make generate.
//! The calls that read keys and pairs of a dynamic table, and the one that reads its lengths.

use super::pieces::{are_pieces, put_piece};
use super::{view, AnyLayout};
use crate::generated::calls::read::header_of;
use crate::generated::calls::status::{status_of, BAD_LENGTHS, OK, TOO_SMALL};
use crate::generated::tables::hash::HashFn;
use crate::generated::tables::layout::Layout;
use crate::generated::tables::memory_layout::{check_by_header, parts_in, stated_layout};

/// Writes the value of a key to `value`. BAD_LENGTHS where the key or `value` has another length
/// than the layout says. ABSENT and errors leave `value` unchanged.
#[inline(always)]
pub fn get<H: HashFn>(layout: Layout, bytes: &[u8], key: &[u8], value: &mut [u8]) -> u32 {
    if key.len() != layout.key_len as usize || value.len() != layout.value_len as usize {
        return BAD_LENGTHS;
    }
    if let Err(refused) = header_of::<Layout, H>(layout, bytes) {
        return status_of(&refused);
    }
    view::get::<H>(layout, bytes, key, value)
}

/// OK where the key has a value, else ABSENT. BAD_LENGTHS where the key has another length than
/// the layout says.
#[inline(always)]
pub fn contains<H: HashFn>(layout: Layout, bytes: &[u8], key: &[u8]) -> u32 {
    if key.len() != layout.key_len as usize {
        return BAD_LENGTHS;
    }
    if let Err(refused) = header_of::<Layout, H>(layout, bytes) {
        return status_of(&refused);
    }
    view::contains::<H>(layout, bytes, key)
}

/// Looks up `count` keys: at the index of a key that is found, its value is written to `values`
/// and 1 to `found`; at any other index 0 is written to `found`. BAD_LENGTHS where the arrays are
/// not for that many keys, values and flags. It and any other error leave both unchanged.
#[inline(always)]
pub fn get_all<H: HashFn>(
    layout: Layout,
    bytes: &[u8],
    count: usize,
    keys: &[u8],
    values: &mut [u8],
    found: &mut [u8],
) -> u32 {
    if !are_pieces(layout, count, keys, values) || found.len() != count {
        return BAD_LENGTHS;
    }
    if let Err(refused) = header_of::<Layout, H>(layout, bytes) {
        return status_of(&refused);
    }
    view::get_all::<H>(layout, bytes, count, keys, values, found)
}

/// Writes the keys and values in the slots from `cursor` on to the arrays, in slot order, as many
/// as fit, and to `item_count` how many. `cursor` is then the slot of the first pair that did not
/// fit (TOO_SMALL), or the slot count where none is left (OK). The arrays take `room` pairs;
/// BAD_LENGTHS where they have more or fewer bytes. An error leaves everything unchanged.
pub fn walk<H: HashFn>(
    layout: Layout,
    bytes: &[u8],
    cursor: &mut usize,
    room: usize,
    keys: &mut [u8],
    values: &mut [u8],
    item_count: &mut usize,
) -> u32 {
    if !are_pieces(layout, room, keys, values) {
        return BAD_LENGTHS;
    }
    let header = match header_of::<Layout, H>(layout, bytes) {
        Ok(header) => header,
        Err(refused) => return status_of(&refused),
    };
    let mut written = 0;
    for (slot, (key, value)) in parts_in::<Layout, H>(bytes, layout).iter_from(*cursor) {
        if written >= room {
            *cursor = slot;
            *item_count = written;
            return TOO_SMALL;
        }
        put_piece(keys, layout.key_len, written, key);
        put_piece(values, layout.value_len, written, value);
        written += 1;
    }
    *cursor = header.slot_count();
    *item_count = written;
    OK
}

/// Writes to `layout` the lengths that the header states, where header and length of the bytes
/// fit; the number of the hash function, which no header states, stays. Else the number of the
/// first error, and `layout` is unchanged.
pub fn layout_of(bytes: &[u8], layout: &mut AnyLayout) -> u32 {
    let stated = match stated_layout(bytes) {
        Ok(stated) => stated,
        Err(refused) => return status_of(&refused),
    };
    match check_by_header(bytes, stated) {
        Ok(()) => {
            layout.key_len = stated.key_len;
            layout.value_len = stated.value_len;
            OK
        }
        Err(refused) => status_of(&refused),
    }
}
