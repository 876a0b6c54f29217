//! The calls of dynamic tables. All lengths of keys and values, also of arrays of them, are in bytes.

use super::{Layout, View};

unsafe extern "C" {
    /// Computes the length in bytes of a new table.
    #[link_name = "odht_any_bytes_needed"]
    pub fn bytes_needed(layout: *const Layout, max_items: usize, percent: u8, len: *mut usize) -> u32;

    /// Makes an empty table.
    #[link_name = "odht_any_init"]
    pub fn init(layout: *const Layout, bytes: *mut u8, bytes_len: usize, max_items: usize, percent: u8) -> u32;

    /// Checks the header, the length and the first ten slots.
    #[link_name = "odht_any_open"]
    pub fn open(layout: *const Layout, bytes: *const u8, bytes_len: usize) -> u32;

    /// Checks every byte.
    #[link_name = "odht_any_check"]
    pub fn check(layout: *const Layout, bytes: *const u8, bytes_len: usize) -> u32;

    /// Checks every byte, and that from each slot a free slot comes within `groups` groups. No search reads more.
    #[link_name = "odht_any_check_within"]
    pub fn check_within(layout: *const Layout, bytes: *const u8, bytes_len: usize, groups: usize) -> u32;

    /// Works like `open`, and writes the slot of the first error.
    #[link_name = "odht_any_open_at"]
    pub fn open_at(layout: *const Layout, bytes: *const u8, bytes_len: usize, slot: *mut usize) -> u32;

    /// Works like `check`, and writes the slot of the first error.
    #[link_name = "odht_any_check_at"]
    pub fn check_at(layout: *const Layout, bytes: *const u8, bytes_len: usize, slot: *mut usize) -> u32;

    /// Works like `check_within`, and writes the slot of the first error.
    #[link_name = "odht_any_check_within_at"]
    pub fn check_within_at(
        layout: *const Layout,
        bytes: *const u8,
        bytes_len: usize,
        groups: usize,
        slot: *mut usize,
    ) -> u32;

    /// Reads the item count in the header.
    #[link_name = "odht_any_len"]
    pub fn len(layout: *const Layout, bytes: *const u8, bytes_len: usize, count: *mut usize) -> u32;

    /// Reads the slot count, the maximum number of items and the load factor in percent.
    #[link_name = "odht_any_sizes"]
    pub fn sizes(
        layout: *const Layout,
        bytes: *const u8,
        bytes_len: usize,
        slots: *mut usize,
        max_items: *mut usize,
        percent: *mut u8,
    ) -> u32;

    /// Computes the length in bytes of the table at the start of longer bytes.
    #[link_name = "odht_any_table_len"]
    pub fn table_len(layout: *const Layout, bytes: *const u8, bytes_len: usize, len: *mut usize) -> u32;

    /// Reads the lengths of keys and values from the header. The hash function of the layout is unchanged.
    #[link_name = "odht_any_layout_of"]
    pub fn layout_of(bytes: *const u8, bytes_len: usize, layout: *mut Layout) -> u32;

    /// Looks up a key.
    #[link_name = "odht_any_get"]
    pub fn get(
        layout: *const Layout,
        bytes: *const u8,
        bytes_len: usize,
        key: *const u8,
        key_len: usize,
        value: *mut u8,
        value_len: usize,
    ) -> u32;

    /// Looks up a key without its value.
    #[link_name = "odht_any_contains"]
    pub fn contains(layout: *const Layout, bytes: *const u8, bytes_len: usize, key: *const u8, key_len: usize) -> u32;

    /// Looks up `count` keys, which follow each other without gaps.
    #[link_name = "odht_any_get_all"]
    pub fn get_all(
        layout: *const Layout,
        bytes: *const u8,
        bytes_len: usize,
        count: usize,
        keys: *const u8,
        keys_len: usize,
        values: *mut u8,
        values_len: usize,
        found: *mut u8,
        found_len: usize,
    ) -> u32;

    /// Writes at most `room` pairs from a slot on, in slot order.
    #[link_name = "odht_any_walk"]
    pub fn walk(
        layout: *const Layout,
        bytes: *const u8,
        bytes_len: usize,
        cursor: *mut usize,
        room: usize,
        keys: *mut u8,
        keys_len: usize,
        values: *mut u8,
        values_len: usize,
        count: *mut usize,
    ) -> u32;

    /// Finds an order of inserts that makes the table. Three numbers of scratch for each slot bound its time.
    #[link_name = "odht_any_insert_order"]
    pub fn insert_order(
        layout: *const Layout,
        bytes: *const u8,
        bytes_len: usize,
        slots: *mut usize,
        slots_len: usize,
        scratch: *mut usize,
        scratch_len: usize,
    ) -> u32;

    /// Inserts a key with its value, or replaces the value of a present key.
    #[link_name = "odht_any_insert"]
    pub fn insert(
        layout: *const Layout,
        bytes: *mut u8,
        bytes_len: usize,
        key: *const u8,
        key_len: usize,
        value: *const u8,
        value_len: usize,
        former: *mut u8,
        former_len: usize,
    ) -> u32;

    /// Inserts `count` keys with their values in order, up to the first that does not fit.
    #[link_name = "odht_any_insert_all"]
    pub fn insert_all(
        layout: *const Layout,
        bytes: *mut u8,
        bytes_len: usize,
        count: usize,
        keys: *const u8,
        keys_len: usize,
        values: *const u8,
        values_len: usize,
        accepted: *mut usize,
    ) -> u32;

    /// Makes a table of `count` pairs, with slots for their number.
    #[link_name = "odht_any_build"]
    pub fn build(
        layout: *const Layout,
        count: usize,
        keys: *const u8,
        keys_len: usize,
        values: *const u8,
        values_len: usize,
        percent: u8,
        out: *mut u8,
        out_len: usize,
        len: *mut usize,
    ) -> u32;

    /// Makes a table that starts with sixteen slots and grows, in allocated memory.
    #[link_name = "odht_any_build_growing"]
    pub fn build_growing(
        layout: *const Layout,
        count: usize,
        keys: *const u8,
        keys_len: usize,
        values: *const u8,
        values_len: usize,
        out: *mut u8,
        out_len: usize,
        len: *mut usize,
    ) -> u32;

    /// Opens bytes for many lookups. The view is also one of a shape with the same lengths.
    #[link_name = "odht_any_open_view"]
    pub fn open_view(layout: *const Layout, bytes: *const u8, bytes_len: usize, view: *mut View) -> u32;

    /// Looks up a key in an opened table.
    #[link_name = "odht_any_view_get"]
    pub fn view_get(
        layout: *const Layout,
        view: *const View,
        key: *const u8,
        key_len: usize,
        value: *mut u8,
        value_len: usize,
    ) -> u32;

    /// Looks up a key without its value in an opened table.
    #[link_name = "odht_any_view_contains"]
    pub fn view_contains(layout: *const Layout, view: *const View, key: *const u8, key_len: usize) -> u32;

    /// Looks up many keys in an opened table.
    #[link_name = "odht_any_view_get_all"]
    pub fn view_get_all(
        layout: *const Layout,
        view: *const View,
        count: usize,
        keys: *const u8,
        keys_len: usize,
        values: *mut u8,
        values_len: usize,
        found: *mut u8,
        found_len: usize,
    ) -> u32;

    /// Returns the item count in the header of an opened table. It does not depend on the lengths.
    #[link_name = "odht_any_view_len"]
    pub fn view_len(view: *const View) -> usize;

    /// Writes a larger copy of the table.
    #[link_name = "odht_any_grow"]
    pub fn grow(
        layout: *const Layout,
        bytes: *const u8,
        bytes_len: usize,
        out: *mut u8,
        out_len: usize,
        len: *mut usize,
    ) -> u32;
}
