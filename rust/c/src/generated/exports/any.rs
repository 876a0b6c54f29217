// Generated from crates/odht_c/src/any.rt by make generate.
//! The exports of dynamic tables. The caller passes the lengths of keys and values, and the hash
//! function, as a layout. In arrays, keys and values follow each other without gaps.
//!
//! Statuses have the names of include/odht.h without `ODHT_`. Each call except `layout_of` returns
//! `BAD_LAYOUT` if no hash function has the number in the layout, or if the keys are shorter than
//! it needs. Then nothing is written. `BAD_PERCENT` rejects load factors that are not from 1 to 100
//! percent. `CAPACITY`: no slot count is large enough, or the length does not fit `usize`.

use crate::generated::calls::any::build::{build, build_growing};
use crate::generated::calls::any::read::{contains, get, get_all, layout_of, walk};
use crate::generated::calls::any::write::{insert, insert_all};
use crate::generated::calls::any::{has_hash, AnyLayout, FX, UNHASH, XXH64};
use crate::generated::calls::places::{check_at, open_at};
use crate::generated::calls::read::{check, insert_order, len, open, sizes, table_len};
use crate::generated::calls::status::BAD_LAYOUT;
use crate::generated::calls::write::{bytes_needed, grow, init};
use crate::generated::tables::hash::HashFn;
use crate::generated::tables::layout::Layout;
use crate::shim::Global;

/// Calls a function for the hash function of a layout, which is its last type parameter, with the
/// lengths of the layout in front of these arguments. BAD_LAYOUT where there is no such hash
/// function, or it needs longer keys.
macro_rules! with_hash {
    ($layout:expr, $function:ident $(::<$lengths:ident>)? ($($argument:expr),* $(,)?)) => {{
        let layout = $layout;
        let lengths = crate::generated::tables::dynamic::Layout {
            key_len: layout.key_len,
            value_len: layout.value_len,
        };
        if has_hash(layout, FX, crate::generated::tables::FxHashFn::MIN_LEN) {
            $function::<$($lengths,)? crate::generated::tables::FxHashFn>(lengths, $($argument),*)
        } else if has_hash(layout, UNHASH, crate::generated::tables::UnHashFn::MIN_LEN) {
            $function::<$($lengths,)? crate::generated::tables::UnHashFn>(lengths, $($argument),*)
        } else if has_hash(layout, XXH64, crate::generated::tables::Xxh64HashFn::MIN_LEN) {
            $function::<$($lengths,)? crate::generated::tables::Xxh64HashFn>(lengths, $($argument),*)
        } else {
            BAD_LAYOUT
        }
    }};
}

pub(crate) mod views;

/// Writes the length in bytes of a new table for that number of items to `len`, and returns 0.
/// With `BAD_PERCENT` and `CAPACITY`, `len` is unchanged.
#[unsafe(no_mangle)]
pub unsafe extern "C" fn odht_any_bytes_needed(
    layout: &AnyLayout,
    max_item_count: usize,
    max_load_factor_percent: u8,
    len: &mut usize,
) -> u32 {
    with_hash!(*layout, bytes_needed::<Layout>(max_item_count, max_load_factor_percent, len))
}

/// Makes an empty table for that number of items in the bytes, and returns 0. The former content
/// of the bytes does not matter. Returns `BAD_PERCENT`, `CAPACITY`, or `INIT_LENGTH` if the table
/// needs another length. Then the bytes are unchanged. Makes one pass over the bytes.
#[unsafe(no_mangle)]
pub unsafe extern "C" fn odht_any_init(
    layout: &AnyLayout,
    bytes: *mut u8,
    bytes_len: usize,
    max_item_count: usize,
    max_load_factor_percent: u8,
) -> u32 {
    let bytes = unsafe { crate::lists::list_mut(bytes, bytes_len) };
    with_hash!(*layout, init::<Layout>(bytes, max_item_count, max_load_factor_percent))
}

/// Returns 0 if the bytes can be opened. Otherwise returns the number of the first error: too few
/// bytes, or an error of the header, the length or the first ten slots. Takes constant time.
#[unsafe(no_mangle)]
pub unsafe extern "C" fn odht_any_open(
    layout: &AnyLayout,
    bytes: *const u8,
    bytes_len: usize,
) -> u32 {
    let bytes = unsafe { crate::lists::list(bytes, bytes_len) };
    with_hash!(*layout, open::<Layout>(bytes))
}

/// Returns 0 exactly if the bytes are valid. Otherwise returns the number of the first error of
/// the whole check. Makes one pass over the slots. For each occupied slot, reads the control bytes
/// of its key's probe order up to that slot.
#[unsafe(no_mangle)]
pub unsafe extern "C" fn odht_any_check(
    layout: &AnyLayout,
    bytes: *const u8,
    bytes_len: usize,
) -> u32 {
    let bytes = unsafe { crate::lists::list(bytes, bytes_len) };
    with_hash!(*layout, check::<Layout>(bytes, None))
}

/// Works like `check`, with a bound for searches. Returns 0 exactly if the bytes are valid and
/// each home has a free slot in the first `groups` groups of its probe order. Then no search reads
/// more groups. Otherwise returns the first error of the whole check, or `SEARCH_TOO_LONG`, which
/// comes before `UNREACHABLE`. For each slot, reads at most `groups` groups of sixteen control
/// bytes for the bound, and at most `groups` for the search.
#[unsafe(no_mangle)]
pub unsafe extern "C" fn odht_any_check_within(
    layout: &AnyLayout,
    bytes: *const u8,
    bytes_len: usize,
    groups: usize,
) -> u32 {
    let bytes = unsafe { crate::lists::list(bytes, bytes_len) };
    with_hash!(*layout, check::<Layout>(bytes, Some(groups)))
}

/// Works like `open`, and writes the slot of the first error to `slot`. With an error of the
/// header or length, and with status 0, it writes `NO_SLOT`, the largest number. With `BAD_LAYOUT`,
/// `slot` is unchanged. Takes constant time.
#[unsafe(no_mangle)]
pub unsafe extern "C" fn odht_any_open_at(
    layout: &AnyLayout,
    bytes: *const u8,
    bytes_len: usize,
    slot: &mut usize,
) -> u32 {
    let bytes = unsafe { crate::lists::list(bytes, bytes_len) };
    with_hash!(*layout, open_at::<Layout>(bytes, slot))
}

/// Works like `check`, and writes the slot of the first error to `slot`: that of an entry, of a
/// control byte or of an unreachable key. With `MIRROR_MISMATCH` it writes the index of the
/// mirror's byte. With any other error, and with status 0, it writes `NO_SLOT`, the largest
/// number. With `BAD_LAYOUT`, `slot` is unchanged. The cost is that of `check`.
#[unsafe(no_mangle)]
pub unsafe extern "C" fn odht_any_check_at(
    layout: &AnyLayout,
    bytes: *const u8,
    bytes_len: usize,
    slot: &mut usize,
) -> u32 {
    let bytes = unsafe { crate::lists::list(bytes, bytes_len) };
    with_hash!(*layout, check_at::<Layout>(bytes, None, slot))
}

/// Works like `check_within`, and writes the slot of the first error to `slot`, as `check_at`
/// does. With `SEARCH_TOO_LONG` it writes the slot where the searches begin.
#[unsafe(no_mangle)]
pub unsafe extern "C" fn odht_any_check_within_at(
    layout: &AnyLayout,
    bytes: *const u8,
    bytes_len: usize,
    groups: usize,
    slot: &mut usize,
) -> u32 {
    let bytes = unsafe { crate::lists::list(bytes, bytes_len) };
    with_hash!(*layout, check_at::<Layout>(bytes, Some(groups), slot))
}

/// Writes the header's item count to `item_count`, and returns 0. With an error of the header or
/// length, `item_count` is unchanged.
#[unsafe(no_mangle)]
pub unsafe extern "C" fn odht_any_len(
    layout: &AnyLayout,
    bytes: *const u8,
    bytes_len: usize,
    item_count: &mut usize,
) -> u32 {
    let bytes = unsafe { crate::lists::list(bytes, bytes_len) };
    with_hash!(*layout, len::<Layout>(bytes, item_count))
}

/// Writes the header's slot count, the maximum number of items for it, and the header's load factor
/// in percent, rounded down. Returns 0. With an error of the header or length, nothing is written.
#[unsafe(no_mangle)]
pub unsafe extern "C" fn odht_any_sizes(
    layout: &AnyLayout,
    bytes: *const u8,
    bytes_len: usize,
    slot_count: &mut usize,
    max_item_count: &mut usize,
    max_load_factor_percent: &mut u8,
) -> u32 {
    let bytes = unsafe { crate::lists::list(bytes, bytes_len) };
    with_hash!(*layout, sizes::<Layout>(bytes, slot_count, max_item_count, max_load_factor_percent))
}

/// Computes the length in bytes of the table at the start of the bytes from its header, writes it
/// to `len`, and returns 0. Reads no slot, and nothing after the table. Returns an error of the
/// header, or `WRONG_LENGTH` if there are fewer bytes than the table needs. Then `len` is
/// unchanged.
#[unsafe(no_mangle)]
pub unsafe extern "C" fn odht_any_table_len(
    layout: &AnyLayout,
    bytes: *const u8,
    bytes_len: usize,
    len: &mut usize,
) -> u32 {
    let bytes = unsafe { crate::lists::list(bytes, bytes_len) };
    with_hash!(*layout, table_len::<Layout>(bytes, len))
}

/// Writes the lengths of keys and values in the header to `layout`, and returns 0. The number of
/// the hash function is unchanged. With an error of the header or length, `layout` is unchanged.
#[unsafe(no_mangle)]
pub unsafe extern "C" fn odht_any_layout_of(
    bytes: *const u8,
    bytes_len: usize,
    layout: &mut AnyLayout,
) -> u32 {
    let bytes = unsafe { crate::lists::list(bytes, bytes_len) };
    layout_of(bytes, layout)
}

/// Writes the value of a key to `value`, and returns 0. Returns `ABSENT` if the key is absent,
/// `BAD_LENGTHS` if the key or `value` does not have the layout's length, or an error of the header
/// or length. Then `value` is unchanged.
#[unsafe(no_mangle)]
pub unsafe extern "C" fn odht_any_get(
    layout: &AnyLayout,
    bytes: *const u8,
    bytes_len: usize,
    key: *const u8,
    key_len: usize,
    value: *mut u8,
    value_len: usize,
) -> u32 {
    let bytes = unsafe { crate::lists::list(bytes, bytes_len) };
    let key = unsafe { crate::lists::list(key, key_len) };
    let value = unsafe { crate::lists::list_mut(value, value_len) };
    with_hash!(*layout, get(bytes, key, value))
}

/// Returns 0 if the key is present, and `ABSENT` if it is absent. Returns `BAD_LENGTHS` if the key
/// does not have the layout's length, or an error of the header or length.
#[unsafe(no_mangle)]
pub unsafe extern "C" fn odht_any_contains(
    layout: &AnyLayout,
    bytes: *const u8,
    bytes_len: usize,
    key: *const u8,
    key_len: usize,
) -> u32 {
    let bytes = unsafe { crate::lists::list(bytes, bytes_len) };
    let key = unsafe { crate::lists::list(key, key_len) };
    with_hash!(*layout, contains(bytes, key))
}

/// Looks up `count` keys, and returns 0. If the key at an index is present, writes 1 to `found` and
/// its value to `values` at that index. If it is absent, writes 0 to `found` and leaves the value
/// unchanged. Returns `BAD_LENGTHS` if the length of `keys`, `values` or `found` is not that of
/// `count` items, or an error of the header or length. Then nothing is written.
#[unsafe(no_mangle)]
pub unsafe extern "C" fn odht_any_get_all(
    layout: &AnyLayout,
    bytes: *const u8,
    bytes_len: usize,
    count: usize,
    keys: *const u8,
    keys_len: usize,
    values: *mut u8,
    values_len: usize,
    found: *mut u8,
    found_len: usize,
) -> u32 {
    let bytes = unsafe { crate::lists::list(bytes, bytes_len) };
    let keys = unsafe { crate::lists::list(keys, keys_len) };
    let values = unsafe { crate::lists::list_mut(values, values_len) };
    let found = unsafe { crate::lists::list_mut(found, found_len) };
    with_hash!(*layout, get_all(bytes, count, keys, values, found))
}

/// Writes keys and values to the arrays, in slot order from the slot `cursor` on, until `room`
/// pairs are written or no pair is left. Writes their number to `item_count`, and the slot to
/// continue at to `cursor`. The first call starts with a `cursor` of 0. Returns 0 if no pair is
/// left, and `TOO_SMALL` if there are more. Returns `BAD_LENGTHS` if the length of `keys` or
/// `values` is not that of `room` items, or an error of the header or length. Then nothing is
/// written.
#[unsafe(no_mangle)]
pub unsafe extern "C" fn odht_any_walk(
    layout: &AnyLayout,
    bytes: *const u8,
    bytes_len: usize,
    cursor: &mut usize,
    room: usize,
    keys: *mut u8,
    keys_len: usize,
    values: *mut u8,
    values_len: usize,
    item_count: &mut usize,
) -> u32 {
    let bytes = unsafe { crate::lists::list(bytes, bytes_len) };
    let keys = unsafe { crate::lists::list_mut(keys, keys_len) };
    let values = unsafe { crate::lists::list_mut(values, values_len) };
    with_hash!(*layout, walk(bytes, cursor, room, keys, values, item_count))
}

/// Writes the occupied slots to `out`, in an order in which inserts make the table, and returns 0.
/// To make exactly these bytes, insert the pairs of these slots in this order into an empty table
/// of the same slot count and load factor. Returns `UNMADE` if no list of inserts makes the table.
/// Then the content of `out` is unspecified. Returns the first error of the whole check, or
/// `BAD_LENGTHS` if the length of `out` is not the number of items. Then `out` and `scratch` are
/// unchanged.
///
/// `scratch` is memory for the search. Its content before the call does not matter, and after 0 and
/// `UNMADE` it is unspecified. Makes the whole check. With at least three numbers of scratch for
/// each slot, the time of the search is proportional to the slots, and to the groups of the longest
/// search of each home. With fewer it makes the passes of the shapes' calls. Allocates nothing.
#[unsafe(no_mangle)]
pub unsafe extern "C" fn odht_any_insert_order(
    layout: &AnyLayout,
    bytes: *const u8,
    bytes_len: usize,
    out: *mut usize,
    out_len: usize,
    scratch: *mut usize,
    scratch_len: usize,
) -> u32 {
    let bytes = unsafe { crate::lists::list(bytes, bytes_len) };
    let out = unsafe { crate::lists::list_mut(out, out_len) };
    let scratch = unsafe { crate::lists::list_mut(scratch, scratch_len) };
    with_hash!(*layout, insert_order::<Layout>(bytes, out, scratch))
}

/// Inserts a key with its value. Returns 0 if the key was new. If the key was present, replaces its
/// value, writes the former one to `former` and returns `REPLACED`. Returns `FULL` if the key is
/// absent and the table is at its maximum, or an error of the header or length. Returns
/// `BAD_LENGTHS` if the key, the value or `former` does not have the layout's length. With these
/// nothing is changed. A view of the bytes remains usable, whatever the status.
#[unsafe(no_mangle)]
pub unsafe extern "C" fn odht_any_insert(
    layout: &AnyLayout,
    bytes: *mut u8,
    bytes_len: usize,
    key: *const u8,
    key_len: usize,
    value: *const u8,
    value_len: usize,
    former: *mut u8,
    former_len: usize,
) -> u32 {
    let bytes = unsafe { crate::lists::list_mut(bytes, bytes_len) };
    let key = unsafe { crate::lists::list(key, key_len) };
    let value = unsafe { crate::lists::list(value, value_len) };
    let former = unsafe { crate::lists::list_mut(former, former_len) };
    with_hash!(*layout, insert(bytes, key, value, former))
}

/// Inserts `count` pairs in order, up to the first `FULL`. Writes the number of inserted pairs to
/// `accepted`. Returns 0 if all are inserted, and `FULL` if not. Returns `BAD_LENGTHS` if the
/// length of `keys` or `values` is not that of `count` items, or an error of the header or length.
/// Then nothing is changed. A view of the bytes remains usable, whatever the status. Makes one
/// insert for each pair. If keys and values have no bytes, all pairs are equal: only the first is
/// inserted.
#[unsafe(no_mangle)]
pub unsafe extern "C" fn odht_any_insert_all(
    layout: &AnyLayout,
    bytes: *mut u8,
    bytes_len: usize,
    count: usize,
    keys: *const u8,
    keys_len: usize,
    values: *const u8,
    values_len: usize,
    accepted: &mut usize,
) -> u32 {
    let bytes = unsafe { crate::lists::list_mut(bytes, bytes_len) };
    let keys = unsafe { crate::lists::list(keys, keys_len) };
    let values = unsafe { crate::lists::list(values, values_len) };
    with_hash!(*layout, insert_all(bytes, count, keys, values, accepted))
}

/// Writes a larger copy of the table to the start of `out`, its length in bytes to `len`, and
/// returns 0. The rest of `out` is unchanged. Returns `TOO_SMALL` if `out` is shorter than the
/// copy. Then only `len` is written. Returns an error of the header or length, or `CAPACITY`, or
/// `LOAD_FACTOR_TOO_SMALL` if the header's load factor is below one percent. Then nothing is
/// written. Makes one pass over both tables, and hashes each key once. Allocates nothing.
#[unsafe(no_mangle)]
pub unsafe extern "C" fn odht_any_grow(
    layout: &AnyLayout,
    bytes: *const u8,
    bytes_len: usize,
    out: *mut u8,
    out_len: usize,
    len: &mut usize,
) -> u32 {
    let bytes = unsafe { crate::lists::list(bytes, bytes_len) };
    let out = unsafe { crate::lists::list_mut(out, out_len) };
    with_hash!(*layout, grow::<Layout>(bytes, out, len))
}

/// Makes a table for `count` items at the start of `out`, inserts the pairs in order, writes the
/// table's length in bytes to `len`, and returns 0. Of equal keys the last value counts. The rest
/// of `out` is unchanged. Returns `TOO_SMALL` if `out` is shorter than the table. Then only `len`
/// is written. Returns `BAD_LENGTHS` if the length of `keys` or `values` is not that of `count`
/// items, `BAD_PERCENT` or `CAPACITY`. Then nothing is written. Makes one pass over the bytes, and
/// one insert for each pair. Allocates nothing.
#[unsafe(no_mangle)]
pub unsafe extern "C" fn odht_any_build(
    layout: &AnyLayout,
    count: usize,
    keys: *const u8,
    keys_len: usize,
    values: *const u8,
    values_len: usize,
    max_load_factor_percent: u8,
    out: *mut u8,
    out_len: usize,
    len: &mut usize,
) -> u32 {
    let keys = unsafe { crate::lists::list(keys, keys_len) };
    let values = unsafe { crate::lists::list(values, values_len) };
    let out = unsafe { crate::lists::list_mut(out, out_len) };
    let percent = max_load_factor_percent;
    with_hash!(*layout, build(count, keys, values, percent, out, len))
}

/// Inserts `count` pairs, in order, into a table in allocated memory, which starts with sixteen
/// slots at 87 percent and grows. Then copies it to the start of `out`, writes its length in bytes
/// to `len`, and returns 0. Of equal keys the last value counts. The rest of `out` is unchanged.
/// Returns `TOO_SMALL` if `out` is shorter than the table. Then only `len` is written. Returns
/// `BAD_LENGTHS` if the length of `keys` or `values` is not that of `count` items, or `MEMORY` if
/// an allocation fails or no table is large enough. Then nothing is written. Makes one insert for
/// each pair, the growths, and one copy of the table. If keys and values have no bytes, all pairs
/// are equal: only the first is inserted.
#[unsafe(no_mangle)]
pub unsafe extern "C" fn odht_any_build_growing(
    layout: &AnyLayout,
    count: usize,
    keys: *const u8,
    keys_len: usize,
    values: *const u8,
    values_len: usize,
    out: *mut u8,
    out_len: usize,
    len: &mut usize,
) -> u32 {
    let alloc = Global;
    let keys = unsafe { crate::lists::list(keys, keys_len) };
    let values = unsafe { crate::lists::list(values, values_len) };
    let out = unsafe { crate::lists::list_mut(out, out_len) };
    with_hash!(*layout, build_growing(alloc, count, keys, values, out, len))
}
