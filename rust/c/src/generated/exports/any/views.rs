// Generated from crates/odht_c/src/any/views.rt by make generate.
//! The exports that open a dynamic table, and that look up in an opened one.
//!
//! Lookups do not check the header: the caller ensures that the bytes of a view are accepted, as
//! they are after `open_view` with the same lengths. Calls that take a layout return `BAD_LAYOUT`
//! as the other exports do.

use crate::generated::calls::any::view::{contains, get, get_all};
use crate::generated::calls::any::{has_hash, AnyLayout, FX, UNHASH, XXH64};
use crate::generated::calls::status::BAD_LAYOUT;
use crate::generated::calls::view::{len, open, View};
use crate::generated::tables::hash::HashFn;
use crate::generated::tables::layout::Layout;

/// Opens the bytes as `open` does, makes `view` a view of them, and returns 0. Otherwise returns
/// an error of the header, the length or the first ten slots. Then `view` is unchanged.
#[unsafe(no_mangle)]
pub unsafe extern "C" fn odht_any_open_view<'a>(
    layout: &AnyLayout,
    bytes: *const u8,
    bytes_len: usize,
    view: &mut View<'a>,
) -> u32 {
    let bytes = unsafe { crate::lists::list(bytes, bytes_len) };
    with_hash!(*layout, open::<Layout>(bytes, view))
}

/// Writes the value of a key in an opened table to `value`, and returns 0. Returns `ABSENT` if the
/// key is absent, and `BAD_LENGTHS` if the key or `value` does not have the layout's length. Then
/// `value` is unchanged.
#[unsafe(no_mangle)]
pub unsafe extern "C" fn odht_any_view_get(
    layout: &AnyLayout,
    view: &View<'_>,
    key: *const u8,
    key_len: usize,
    value: *mut u8,
    value_len: usize,
) -> u32 {
    let key = unsafe { crate::lists::list(key, key_len) };
    let value = unsafe { crate::lists::list_mut(value, value_len) };
    with_hash!(*layout, get(view.bytes, key, value))
}

/// Returns 0 if the key is present in an opened table, and `ABSENT` if it is absent. Returns
/// `BAD_LENGTHS` if the key does not have the layout's length.
#[unsafe(no_mangle)]
pub unsafe extern "C" fn odht_any_view_contains(
    layout: &AnyLayout,
    view: &View<'_>,
    key: *const u8,
    key_len: usize,
) -> u32 {
    let key = unsafe { crate::lists::list(key, key_len) };
    with_hash!(*layout, contains(view.bytes, key))
}

/// Looks up `count` keys in an opened table, and returns 0. If the key at an index is present,
/// writes 1 to `found` and its value to `values` at that index. If it is absent, writes 0 to
/// `found` and leaves the value unchanged. Returns `BAD_LENGTHS` if the length of `keys`, `values`
/// or `found` is not that of `count` items. Then nothing is written.
#[unsafe(no_mangle)]
pub unsafe extern "C" fn odht_any_view_get_all(
    layout: &AnyLayout,
    view: &View<'_>,
    count: usize,
    keys: *const u8,
    keys_len: usize,
    values: *mut u8,
    values_len: usize,
    found: *mut u8,
    found_len: usize,
) -> u32 {
    let keys = unsafe { crate::lists::list(keys, keys_len) };
    let values = unsafe { crate::lists::list_mut(values, values_len) };
    let found = unsafe { crate::lists::list_mut(found, found_len) };
    with_hash!(*layout, get_all(view.bytes, count, keys, values, found))
}

/// Returns the item count in the header of an opened table. If the bytes are valid, this is the
/// number of items. Nothing is checked: the caller ensures that the view's bytes begin with a
/// header, as they do after `open_view`. The call takes no layout, because the count does not
/// depend on the lengths.
#[unsafe(no_mangle)]
pub unsafe extern "C" fn odht_any_view_len(view: &View<'_>) -> usize {
    len(view)
}
