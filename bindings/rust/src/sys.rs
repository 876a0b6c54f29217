//! The calls of the archive by their symbols: one module for each shape of table, and `any` for dynamic tables.
//! include/odht.h describes each call.
//!
//! A slice is passed as a pointer and a length. The length of bytes is in bytes, and that of an array in items. Each
//! call returns a status, except `view_len` and `odht_version`.
//!
//! # Safety
//!
//! The caller of these functions ensures:
//!
//! - No pointer is null, not even with a length of 0. Pointers to numbers are aligned. Keys that are bytes, and the
//!   bytes of a table, may begin at any address.
//! - All of a slice can be read, and also written if its pointer is `*mut`. A slice or out-parameter that a call writes
//!   overlaps no other of that call.
//! - Nothing writes the bytes while a call reads them. Nothing else reads or writes them while a call writes them.
//! - A view that is passed to a lookup was written by `open_view` of the same shape or the same lengths. Or the caller
//!   made it from bytes that `open` of these has accepted.
//! - The bytes of such a view are still there. Since then nothing has written their header except `insert`,
//!   `insert_all` and `init` of the same shape or lengths, called with exactly these bytes.

const _: () = assert!(size_of::<usize>() == 8, "the library is built for 64 bits");

/// The pointer and the length of the bytes of an opened table.
#[repr(C)]
#[derive(Clone, Copy, Debug)]
pub struct View {
    /// All bytes of the table.
    pub bytes: *const u8,
    /// The number of bytes.
    pub len: usize,
}

unsafe extern "C" {
    /// Returns the version of the archive as one number: 1.2.3 is 10203. It requires nothing of its caller.
    pub safe fn odht_version() -> u32;
}

/// The lengths of keys and values of a dynamic table, and the number of its hash function.
#[repr(C)]
#[derive(Clone, Copy, Debug, PartialEq, Eq)]
pub struct Layout {
    /// The length of each key, in bytes.
    pub key_len: u8,
    /// The length of each value, in bytes. For a set it is 0.
    pub value_len: u8,
    /// The hash function:
    ///
    /// - 0 is that of rustc-hash, for numbers that count up.
    /// - 1 is for keys that are already hashes, of at least four bytes.
    /// - 2 is XXH64, for all other keys, such as text.
    pub hash: u8,
}

pub mod any;

include!("generated/shapes.rs");

// The type of the parameter for a single key or value.
macro_rules! passed {
    (number $type:ty) => { $type };
    (bytes $type:ty) => { *const $type };
}

macro_rules! declare {
    ($(
        $module:ident, $shape:ident, $config:ident:
        $key:ty as $key_kind:ident => $value:ty $(as $value_kind:ident)?, $words:literal;
    )*) => { $(
        #[doc = concat!($words, ".")]
        pub mod $module {
            use super::View;

            // The values of a set are `()`. The calls take pointers to them, and never read or write through these.
            #[allow(improper_ctypes)]
            unsafe extern "C" {
                /// Computes the length in bytes of a new table.
                #[link_name = concat!("odht_", stringify!($module), "_bytes_needed")]
                pub fn bytes_needed(max_items: usize, percent: u8, len: *mut usize) -> u32;

                /// Makes an empty table.
                #[link_name = concat!("odht_", stringify!($module), "_init")]
                pub fn init(bytes: *mut u8, bytes_len: usize, max_items: usize, percent: u8) -> u32;

                /// Checks the header, the length and the first ten slots.
                #[link_name = concat!("odht_", stringify!($module), "_open")]
                pub fn open(bytes: *const u8, bytes_len: usize) -> u32;

                /// Checks every byte.
                #[link_name = concat!("odht_", stringify!($module), "_check")]
                pub fn check(bytes: *const u8, bytes_len: usize) -> u32;

                /// Checks every byte, and that from each slot a free slot comes within `groups` groups. No search reads
                /// more.
                #[link_name = concat!("odht_", stringify!($module), "_check_within")]
                pub fn check_within(bytes: *const u8, bytes_len: usize, groups: usize) -> u32;

                /// Works like `open`, and writes the slot of the first error.
                #[link_name = concat!("odht_", stringify!($module), "_open_at")]
                pub fn open_at(bytes: *const u8, bytes_len: usize, slot: *mut usize) -> u32;

                /// Works like `check`, and writes the slot of the first error.
                #[link_name = concat!("odht_", stringify!($module), "_check_at")]
                pub fn check_at(bytes: *const u8, bytes_len: usize, slot: *mut usize) -> u32;

                /// Works like `check_within`, and writes the slot of the first error.
                #[link_name = concat!("odht_", stringify!($module), "_check_within_at")]
                pub fn check_within_at(bytes: *const u8, bytes_len: usize, groups: usize, slot: *mut usize) -> u32;

                /// Reads the slot count, the maximum number of items and the load factor in percent.
                #[link_name = concat!("odht_", stringify!($module), "_sizes")]
                pub fn sizes(
                    bytes: *const u8,
                    bytes_len: usize,
                    slots: *mut usize,
                    max_items: *mut usize,
                    percent: *mut u8,
                ) -> u32;

                /// Computes the length in bytes of the table at the start of longer bytes.
                #[link_name = concat!("odht_", stringify!($module), "_table_len")]
                pub fn table_len(bytes: *const u8, bytes_len: usize, len: *mut usize) -> u32;

                /// Reads the item count in the header.
                #[link_name = concat!("odht_", stringify!($module), "_len")]
                pub fn len(bytes: *const u8, bytes_len: usize, count: *mut usize) -> u32;

                /// Looks up a key.
                #[link_name = concat!("odht_", stringify!($module), "_get")]
                pub fn get(bytes: *const u8, bytes_len: usize, key: passed!($key_kind $key), value: *mut $value) -> u32;

                /// Looks up many keys.
                #[link_name = concat!("odht_", stringify!($module), "_get_all")]
                pub fn get_all(
                    bytes: *const u8,
                    bytes_len: usize,
                    keys: *const $key,
                    keys_len: usize,
                    values: *mut $value,
                    values_len: usize,
                    found: *mut u8,
                    found_len: usize,
                ) -> u32;

                /// Inserts a key with its value, or replaces the value of a present key.
                #[link_name = concat!("odht_", stringify!($module), "_insert")]
                pub fn insert(
                    bytes: *mut u8,
                    bytes_len: usize,
                    key: passed!($key_kind $key),
                    $(value: passed!($value_kind $value),)?
                    former: *mut $value,
                ) -> u32;

                /// Inserts keys with their values in order, up to the first that does not fit.
                #[link_name = concat!("odht_", stringify!($module), "_insert_all")]
                pub fn insert_all(
                    bytes: *mut u8,
                    bytes_len: usize,
                    keys: *const $key,
                    keys_len: usize,
                    values: *const $value,
                    values_len: usize,
                    accepted: *mut usize,
                ) -> u32;

                /// Writes the pairs from a slot on, in slot order.
                #[link_name = concat!("odht_", stringify!($module), "_walk")]
                pub fn walk(
                    bytes: *const u8,
                    bytes_len: usize,
                    cursor: *mut usize,
                    keys: *mut $key,
                    keys_len: usize,
                    values: *mut $value,
                    values_len: usize,
                    count: *mut usize,
                ) -> u32;

                /// Finds an order of inserts that makes the table.
                #[link_name = concat!("odht_", stringify!($module), "_insert_order")]
                pub fn insert_order(
                    bytes: *const u8,
                    bytes_len: usize,
                    out: *mut usize,
                    out_len: usize,
                ) -> u32;

                /// Writes a larger copy of the table.
                #[link_name = concat!("odht_", stringify!($module), "_grow")]
                pub fn grow(
                    bytes: *const u8,
                    bytes_len: usize,
                    out: *mut u8,
                    out_len: usize,
                    len: *mut usize,
                ) -> u32;

                /// Makes a table of these pairs, with slots for their number.
                #[link_name = concat!("odht_", stringify!($module), "_build")]
                pub fn build(
                    keys: *const $key,
                    keys_len: usize,
                    values: *const $value,
                    values_len: usize,
                    percent: u8,
                    out: *mut u8,
                    out_len: usize,
                    len: *mut usize,
                ) -> u32;

                /// Makes a table that grows as these pairs are inserted.
                #[link_name = concat!("odht_", stringify!($module), "_build_growing")]
                pub fn build_growing(
                    keys: *const $key,
                    keys_len: usize,
                    values: *const $value,
                    values_len: usize,
                    out: *mut u8,
                    out_len: usize,
                    len: *mut usize,
                ) -> u32;

                /// Opens bytes for many lookups.
                #[link_name = concat!("odht_", stringify!($module), "_open_view")]
                pub fn open_view(bytes: *const u8, bytes_len: usize, view: *mut View) -> u32;

                /// Looks up a key in an opened table.
                #[link_name = concat!("odht_", stringify!($module), "_view_get")]
                pub fn view_get(view: *const View, key: passed!($key_kind $key), value: *mut $value) -> u32;

                /// Looks up many keys in an opened table.
                #[link_name = concat!("odht_", stringify!($module), "_view_get_all")]
                pub fn view_get_all(
                    view: *const View,
                    keys: *const $key,
                    keys_len: usize,
                    values: *mut $value,
                    values_len: usize,
                    found: *mut u8,
                    found_len: usize,
                ) -> u32;

                /// Returns the item count in the header of an opened table.
                #[link_name = concat!("odht_", stringify!($module), "_view_len")]
                pub fn view_len(view: *const View) -> usize;
            }
        }
    )* };
}

each_shape!(declare);
