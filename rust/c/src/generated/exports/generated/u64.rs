// Generated from crates/odht_c/src/generated/u64.rt by make generate.
//! The exports of tables of 64-bit numbers, a set, FxHashFn.
//!
//! Statuses have the names of include/odht.h without `ODHT_`. An error of the header or length is a
//! number from 1 to 7. Load factors are in percent of slots. docs/FORMAT.md describes the bytes.
//! docs/PROOFS.md, "Calls for C", lists what is proved.
//!
//! Generated from lists/shapes.txt and crates/odht_c/exports/shape.rt.in by make generate.

use crate::generated::calls::status::BAD_LENGTHS;
use crate::generated::calls::view::{self, View};
use crate::generated::calls::{build, places, read, write};
use crate::generated::tables::bytes::BorrowedMut;
use crate::generated::tables::config::Config;
use crate::generated::tables::configs::U64Set as Shape;
use crate::generated::tables::layout::Fixed;
use crate::shim::Global;

// The lengths of keys and values, and the hash function.
type Sizes = Fixed<<Shape as Config>::EncodedKey, <Shape as Config>::EncodedValue>;

type Hash = <Shape as Config>::H;

/// Writes the length in bytes of a new table for that number of items to `len`, and returns 0.
/// Returns `BAD_PERCENT` if the load factor is not from 1 to 100 percent. Returns `CAPACITY` if no
/// slot count is large enough or the length does not fit `usize`. Then `len` is unchanged.
#[unsafe(no_mangle)]
pub unsafe extern "C" fn odht_u64_bytes_needed(
    max_item_count: usize,
    max_load_factor_percent: u8,
    len: &mut usize,
) -> u32 {
    let sizes = Sizes::new();
    write::bytes_needed::<Sizes, Hash>(sizes, max_item_count, max_load_factor_percent, len)
}

/// Makes an empty table for that number of items in the bytes, and returns 0. The former content
/// of the bytes does not matter. Returns `BAD_PERCENT`, `CAPACITY`, or `INIT_LENGTH` if the table
/// needs another length. Then the bytes are unchanged. Makes one pass over the bytes.
#[unsafe(no_mangle)]
pub unsafe extern "C" fn odht_u64_init(
    bytes: *mut u8,
    bytes_len: usize,
    max_item_count: usize,
    max_load_factor_percent: u8,
) -> u32 {
    let bytes = unsafe { crate::lists::list_mut(bytes, bytes_len) };
    let sizes = Sizes::new();
    write::init::<Sizes, Hash>(sizes, bytes, max_item_count, max_load_factor_percent)
}

/// Returns 0 if the bytes can be opened. Otherwise returns the number of the first error,
/// 1 to 9: too few bytes, or an error of the header, the length or the first ten slots. Takes
/// constant time.
#[unsafe(no_mangle)]
pub unsafe extern "C" fn odht_u64_open(bytes: *const u8, bytes_len: usize) -> u32 {
    let bytes = unsafe { crate::lists::list(bytes, bytes_len) };
    read::open::<Sizes, Hash>(Sizes::new(), bytes)
}

/// Returns 0 exactly if the bytes are valid. Otherwise returns the number of the first error of
/// the whole check, 1 to 16. Makes one pass over the slots. For each occupied slot, reads the
/// control bytes of its key's probe order up to that slot.
#[unsafe(no_mangle)]
pub unsafe extern "C" fn odht_u64_check(bytes: *const u8, bytes_len: usize) -> u32 {
    let bytes = unsafe { crate::lists::list(bytes, bytes_len) };
    read::check::<Sizes, Hash>(Sizes::new(), bytes, None)
}

/// Works like `check`, with a bound for searches. Returns 0 exactly if the bytes are valid and
/// each home has a free slot in the first `groups` groups of its probe order. Then no search reads
/// more groups. Otherwise returns the first error of the whole check, or `SEARCH_TOO_LONG`, which
/// comes before `UNREACHABLE`. For each slot, reads at most `groups` groups of sixteen control
/// bytes for the bound, and at most `groups` for the search.
#[unsafe(no_mangle)]
pub unsafe extern "C" fn odht_u64_check_within(
    bytes: *const u8,
    bytes_len: usize,
    groups: usize,
) -> u32 {
    let bytes = unsafe { crate::lists::list(bytes, bytes_len) };
    read::check::<Sizes, Hash>(Sizes::new(), bytes, Some(groups))
}

/// Works like `open`, and writes the slot of the first error to `slot`. With an error of the
/// header or length, and with status 0, it writes `NO_SLOT`, the largest number. Takes constant
/// time.
#[unsafe(no_mangle)]
pub unsafe extern "C" fn odht_u64_open_at(
    bytes: *const u8,
    bytes_len: usize,
    slot: &mut usize,
) -> u32 {
    let bytes = unsafe { crate::lists::list(bytes, bytes_len) };
    places::open_at::<Sizes, Hash>(Sizes::new(), bytes, slot)
}

/// Works like `check`, and writes the slot of the first error to `slot`: that of an entry, of a
/// control byte or of an unreachable key. With `MIRROR_MISMATCH` it writes the index of the
/// mirror's byte. With any other error, and with status 0, it writes `NO_SLOT`, the largest
/// number. The cost is that of `check`.
#[unsafe(no_mangle)]
pub unsafe extern "C" fn odht_u64_check_at(
    bytes: *const u8,
    bytes_len: usize,
    slot: &mut usize,
) -> u32 {
    let bytes = unsafe { crate::lists::list(bytes, bytes_len) };
    places::check_at::<Sizes, Hash>(Sizes::new(), bytes, None, slot)
}

/// Works like `check_within`, and writes the slot of the first error to `slot`, as `check_at`
/// does. With `SEARCH_TOO_LONG` it writes the slot where the searches begin. The cost is that of
/// `check_within`.
#[unsafe(no_mangle)]
pub unsafe extern "C" fn odht_u64_check_within_at(
    bytes: *const u8,
    bytes_len: usize,
    groups: usize,
    slot: &mut usize,
) -> u32 {
    let bytes = unsafe { crate::lists::list(bytes, bytes_len) };
    places::check_at::<Sizes, Hash>(Sizes::new(), bytes, Some(groups), slot)
}

/// Inserts a key with its value. Returns 0 if the key was new. If the key was present, replaces
/// its value, writes the former one to `former` and returns `REPLACED`. Returns `FULL` if the key
/// is absent and the table is at its maximum, or an error of the header or length. Then nothing is
/// changed. A view of the bytes remains usable, whatever the status.
#[unsafe(no_mangle)]
pub unsafe extern "C" fn odht_u64_insert(
    bytes: *mut u8,
    bytes_len: usize,
    key: u64,
    former: &mut (),
) -> u32 {
    let bytes = unsafe { crate::lists::list_mut(bytes, bytes_len) };
    let mut store = BorrowedMut::new(bytes);
    write::insert::<Shape, BorrowedMut<'_>>(&mut store, &key, &(), former)
}

/// Inserts the key and the value at each index, in order, up to the first `FULL`. Writes the
/// number of inserted pairs to `accepted`. Returns 0 if all are inserted, and `FULL` if not.
/// Returns `BAD_LENGTHS` if the numbers of keys and values differ, or an error of the header or
/// length. Then nothing is changed. A view of the bytes remains usable, whatever the status.
#[unsafe(no_mangle)]
pub unsafe extern "C" fn odht_u64_insert_all(
    bytes: *mut u8,
    bytes_len: usize,
    keys: *const u64,
    keys_len: usize,
    values: *const (),
    values_len: usize,
    accepted: &mut usize,
) -> u32 {
    let bytes = unsafe { crate::lists::list_mut(bytes, bytes_len) };
    let keys = unsafe { crate::lists::list(keys, keys_len) };
    let values = unsafe { crate::lists::list(values, values_len) };
    if values.len() != keys.len() {
        return BAD_LENGTHS;
    }
    write::insert_all::<Shape>(bytes, keys, values, accepted)
}

/// Writes the value of a key to `value`, and returns 0. Returns `ABSENT` if the key is absent, or
/// an error of the header or length. Then `value` is unchanged.
#[unsafe(no_mangle)]
pub unsafe extern "C" fn odht_u64_get(
    bytes: *const u8,
    bytes_len: usize,
    key: u64,
    value: &mut (),
) -> u32 {
    let bytes = unsafe { crate::lists::list(bytes, bytes_len) };
    read::get::<Shape>(bytes, &key, value)
}

/// Looks up many keys, and returns 0. If the key at an index is present, writes 1 to `found` and
/// its value to `values` at that index. If it is absent, writes 0 to `found` and leaves the value
/// unchanged. Returns `BAD_LENGTHS` if the arrays have different lengths, or an error of the header
/// or length. Then nothing is written.
#[unsafe(no_mangle)]
pub unsafe extern "C" fn odht_u64_get_all(
    bytes: *const u8,
    bytes_len: usize,
    keys: *const u64,
    keys_len: usize,
    values: *mut (),
    values_len: usize,
    found: *mut u8,
    found_len: usize,
) -> u32 {
    let bytes = unsafe { crate::lists::list(bytes, bytes_len) };
    let keys = unsafe { crate::lists::list(keys, keys_len) };
    let values = unsafe { crate::lists::list_mut(values, values_len) };
    let found = unsafe { crate::lists::list_mut(found, found_len) };
    if values.len() != keys.len() || found.len() != keys.len() {
        return BAD_LENGTHS;
    }
    read::get_all::<Shape>(bytes, keys, values, found)
}

/// Writes the header's item count to `item_count`, and returns 0. With an error of the header or
/// length, `item_count` is unchanged.
#[unsafe(no_mangle)]
pub unsafe extern "C" fn odht_u64_len(
    bytes: *const u8,
    bytes_len: usize,
    item_count: &mut usize,
) -> u32 {
    let bytes = unsafe { crate::lists::list(bytes, bytes_len) };
    read::len::<Sizes, Hash>(Sizes::new(), bytes, item_count)
}

/// Writes the header's slot count, the maximum number of items for it, and the header's load
/// factor in percent, rounded down. Returns 0. With an error of the header or length, nothing is
/// written.
#[unsafe(no_mangle)]
pub unsafe extern "C" fn odht_u64_sizes(
    bytes: *const u8,
    bytes_len: usize,
    slot_count: &mut usize,
    max_item_count: &mut usize,
    max_load_factor_percent: &mut u8,
) -> u32 {
    let bytes = unsafe { crate::lists::list(bytes, bytes_len) };
    read::sizes::<Sizes, Hash>(
        Sizes::new(),
        bytes,
        slot_count,
        max_item_count,
        max_load_factor_percent,
    )
}

/// Computes the length in bytes of the table at the start of the bytes from its header, writes it
/// to `len`, and returns 0. Reads no slot, and nothing after the table. Returns an error of the
/// header, or `WRONG_LENGTH` if there are fewer bytes than the table needs. Then `len` is
/// unchanged.
#[unsafe(no_mangle)]
pub unsafe extern "C" fn odht_u64_table_len(
    bytes: *const u8,
    bytes_len: usize,
    len: &mut usize,
) -> u32 {
    let bytes = unsafe { crate::lists::list(bytes, bytes_len) };
    read::table_len::<Sizes, Hash>(Sizes::new(), bytes, len)
}

/// Writes keys and values to the arrays, in slot order from the slot `cursor` on, until the arrays
/// are full or no pair is left. Writes their number to `item_count`, and the slot to continue at
/// to `cursor`. The first call starts with a `cursor` of 0. Returns 0 if no pair is left, and
/// `TOO_SMALL` if there are more. Returns `BAD_LENGTHS` if the arrays have different lengths, or an
/// error of the header or length. Then nothing is written.
#[unsafe(no_mangle)]
pub unsafe extern "C" fn odht_u64_walk(
    bytes: *const u8,
    bytes_len: usize,
    cursor: &mut usize,
    keys: *mut u64,
    keys_len: usize,
    values: *mut (),
    values_len: usize,
    item_count: &mut usize,
) -> u32 {
    let bytes = unsafe { crate::lists::list(bytes, bytes_len) };
    let keys = unsafe { crate::lists::list_mut(keys, keys_len) };
    let values = unsafe { crate::lists::list_mut(values, values_len) };
    if values.len() != keys.len() {
        return BAD_LENGTHS;
    }
    read::walk::<Shape>(bytes, cursor, keys, values, item_count)
}

/// Opens the bytes as `open` does, makes `view` a view of them, and returns 0. Otherwise returns
/// an error of the header, the length or the first ten slots, 1 to 9. Then `view` is unchanged.
#[unsafe(no_mangle)]
pub unsafe extern "C" fn odht_u64_open_view<'a>(
    bytes: *const u8,
    bytes_len: usize,
    view: &mut View<'a>,
) -> u32 {
    let bytes = unsafe { crate::lists::list(bytes, bytes_len) };
    view::open::<Sizes, Hash>(Sizes::new(), bytes, view)
}

/// Writes the value of a key in an opened table to `value`, and returns 0. Returns `ABSENT` if the
/// key is absent. Then `value` is unchanged. The header is not checked: the caller ensures that the
/// view's bytes are accepted, as they are after `open_view`.
#[unsafe(no_mangle)]
pub unsafe extern "C" fn odht_u64_view_get(view: &View<'_>, key: u64, value: &mut ()) -> u32 {
    view::get(&view::table::<Shape>(view), &key, value)
}

/// Looks up many keys in an opened table, and returns 0. Writes to `values` and `found` as
/// `get_all` does. Returns `BAD_LENGTHS` if the arrays have different lengths. Then nothing is
/// written. The header is not checked: the caller ensures that the view's bytes are accepted, as
/// they are after `open_view`.
#[unsafe(no_mangle)]
pub unsafe extern "C" fn odht_u64_view_get_all(
    view: &View<'_>,
    keys: *const u64,
    keys_len: usize,
    values: *mut (),
    values_len: usize,
    found: *mut u8,
    found_len: usize,
) -> u32 {
    let keys = unsafe { crate::lists::list(keys, keys_len) };
    let values = unsafe { crate::lists::list_mut(values, values_len) };
    let found = unsafe { crate::lists::list_mut(found, found_len) };
    if values.len() != keys.len() || found.len() != keys.len() {
        return BAD_LENGTHS;
    }
    view::get_all(&view::table::<Shape>(view), keys, values, found)
}

/// Returns the item count in the header of an opened table. If the bytes are valid, this is the
/// number of items. Nothing is checked: the caller ensures that the view's bytes are accepted, as
/// they are after `open_view`.
#[unsafe(no_mangle)]
pub unsafe extern "C" fn odht_u64_view_len(view: &View<'_>) -> usize {
    view::table::<Shape>(view).len()
}

/// Writes the occupied slots to `out`, in an order in which inserts make the table, and returns 0.
/// To make exactly these bytes, insert the pairs of these slots in this order into an empty table
/// of the same slot count and load factor. Returns `UNMADE` if no list of inserts makes the table.
/// Then the content of `out` is unspecified. Returns the first error of the whole check, 1 to 16,
/// or `BAD_LENGTHS` if the length of `out` is not the number of items. Then `out` is unchanged.
///
/// Makes the whole check, and then passes over the items. There is at most one pass more than there
/// are items that wait for the insert of an item in a later slot. Each pass ends with a sort of the
/// items that are left. Allocates nothing.
#[unsafe(no_mangle)]
pub unsafe extern "C" fn odht_u64_insert_order(
    bytes: *const u8,
    bytes_len: usize,
    out: *mut usize,
    out_len: usize,
) -> u32 {
    let bytes = unsafe { crate::lists::list(bytes, bytes_len) };
    let out = unsafe { crate::lists::list_mut(out, out_len) };
    read::insert_order::<Sizes, Hash>(Sizes::new(), bytes, out, &mut [])
}

/// Writes a larger copy of the table in `bytes` to the start of `out`, its length in bytes to
/// `len`, and returns 0. The copy has the same load factor, and slots for twice the number of
/// items, and for at least one. The pairs are placed in slot order (docs/FORMAT.md, "Growth"). The
/// rest of `out` is unchanged. Returns `TOO_SMALL` if `out` is shorter than the copy. Then only
/// `len` is written. Returns an error of the header or length, or `LOAD_FACTOR_TOO_SMALL` if the
/// header's load factor is below one percent. Returns `CAPACITY` if no slot count is large enough
/// or the length does not fit `usize`. With these errors nothing is written. Makes one pass over
/// both tables, and hashes each key once. Allocates nothing.
#[unsafe(no_mangle)]
pub unsafe extern "C" fn odht_u64_grow(
    bytes: *const u8,
    bytes_len: usize,
    out: *mut u8,
    out_len: usize,
    len: &mut usize,
) -> u32 {
    let bytes = unsafe { crate::lists::list(bytes, bytes_len) };
    let out = unsafe { crate::lists::list_mut(out, out_len) };
    write::grow::<Sizes, Hash>(Sizes::new(), bytes, out, len)
}

/// Makes a table for the number of pairs at the start of `out`, and inserts the key and the value
/// at each index in order. Writes the table's length in bytes to `len`, and returns 0. Of equal
/// keys the last value counts. The rest of `out` is unchanged. Returns `TOO_SMALL` if `out` is
/// shorter than the table. Then only `len` is written. Returns `BAD_LENGTHS` if the numbers of keys
/// and values differ, or `BAD_PERCENT` if the load factor is not from 1 to 100 percent. Returns
/// `CAPACITY` only if no slot count is large enough or the length does not fit `usize`. With these
/// errors nothing is written. Makes one pass over the bytes, and one insert for each pair.
/// Allocates nothing.
#[unsafe(no_mangle)]
pub unsafe extern "C" fn odht_u64_build(
    keys: *const u64,
    keys_len: usize,
    values: *const (),
    values_len: usize,
    max_load_factor_percent: u8,
    out: *mut u8,
    out_len: usize,
    len: &mut usize,
) -> u32 {
    let keys = unsafe { crate::lists::list(keys, keys_len) };
    let values = unsafe { crate::lists::list(values, values_len) };
    let out = unsafe { crate::lists::list_mut(out, out_len) };
    if values.len() != keys.len() {
        return BAD_LENGTHS;
    }
    build::collected::<Shape>(keys, values, max_load_factor_percent, out, len)
}

/// Inserts the key and the value at each index, in order, into a table in allocated memory. The
/// table starts with sixteen slots at 87 percent, and grows. Then copies it to the start of `out`,
/// writes its length in bytes to `len`, and returns 0. Of equal keys the last value counts. The
/// rest of `out` is unchanged. Returns `TOO_SMALL` if `out` is shorter than the table. Then only
/// `len` is written. Returns `BAD_LENGTHS` if the numbers of keys and values differ, or `MEMORY` if
/// an allocation fails or no table is large enough. Then nothing is written. Makes one insert for
/// each pair, the growths, and one copy of the table.
#[unsafe(no_mangle)]
pub unsafe extern "C" fn odht_u64_build_growing(
    keys: *const u64,
    keys_len: usize,
    values: *const (),
    values_len: usize,
    out: *mut u8,
    out_len: usize,
    len: &mut usize,
) -> u32 {
    let alloc = Global;
    let keys = unsafe { crate::lists::list(keys, keys_len) };
    let values = unsafe { crate::lists::list(values, values_len) };
    let out = unsafe { crate::lists::list_mut(out, out_len) };
    if values.len() != keys.len() {
        return BAD_LENGTHS;
    }
    build::grown::<Shape>(alloc, keys, values, out, len)
}
