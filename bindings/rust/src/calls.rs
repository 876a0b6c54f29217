//! The calls of the archive with slices and references instead of pointers, the same for every shape. Each returns a
//! status. include/odht.h describes them.
//!
//! All calls except three are safe functions here, because slices and references guarantee what [`crate::sys`]
//! requires:
//!
//! - Their pointers are aligned and not null, even those of empty slices. All of a slice can be read, and written if it
//!   is `mut`.
//! - A mutable borrow overlaps no other borrow, and nothing else reads or writes it meanwhile. Nothing writes what is
//!   borrowed for reading.
//! - The archive keeps no pointer, except that it writes one to the view of `open_view`.

use crate::shape::*;
use crate::sys::{self, View};

/// The calls for one shape of table.
pub trait Calls {
    type Key;
    type Value;

    fn bytes_needed(max_items: usize, percent: u8, len: &mut usize) -> u32;
    fn init(bytes: &mut [u8], max_items: usize, percent: u8) -> u32;
    fn open(bytes: &[u8]) -> u32;
    fn check(bytes: &[u8]) -> u32;
    fn check_within(bytes: &[u8], groups: usize) -> u32;
    fn open_at(bytes: &[u8], slot: &mut usize) -> u32;
    fn check_at(bytes: &[u8], slot: &mut usize) -> u32;
    fn check_within_at(bytes: &[u8], groups: usize, slot: &mut usize) -> u32;
    fn sizes(bytes: &[u8], slots: &mut usize, max_items: &mut usize, percent: &mut u8) -> u32;
    fn table_len(bytes: &[u8], len: &mut usize) -> u32;
    fn insert(bytes: &mut [u8], key: &Self::Key, value: Self::Value, former: &mut Self::Value) -> u32;
    fn insert_all(bytes: &mut [u8], keys: &[Self::Key], values: &[Self::Value], accepted: &mut usize) -> u32;
    fn walk(
        bytes: &[u8],
        cursor: &mut usize,
        keys: &mut [Self::Key],
        values: &mut [Self::Value],
        count: &mut usize,
    ) -> u32;
    fn insert_order(bytes: &[u8], out: &mut [usize]) -> u32;
    fn grow(bytes: &[u8], out: &mut [u8], len: &mut usize) -> u32;
    fn build(keys: &[Self::Key], values: &[Self::Value], percent: u8, out: &mut [u8], len: &mut usize) -> u32;
    fn build_growing(keys: &[Self::Key], values: &[Self::Value], out: &mut [u8], len: &mut usize) -> u32;

    /// Returns the status and a view. If the status is `OK`, it is a view of the bytes, and otherwise of no bytes.
    fn open_view(bytes: &[u8]) -> (u32, View);

    /// # Safety
    ///
    /// - The view comes from a [`Calls::open_view`] of this shape that returned `OK`. Or it is the pointer and the
    ///   length of bytes for which [`Calls::open`] or [`Calls::init`] of this shape returned `OK`.
    /// - Since then only [`Calls::insert`] and [`Calls::insert_all`] of this shape have written the bytes.
    /// - Nothing writes the bytes until this call returns.
    unsafe fn view_get(view: &View, key: &Self::Key, value: &mut Self::Value) -> u32;

    /// # Safety
    ///
    /// As for [`Calls::view_get`].
    unsafe fn view_get_all(view: &View, keys: &[Self::Key], values: &mut [Self::Value], found: &mut [u8]) -> u32;

    /// # Safety
    ///
    /// As for [`Calls::view_get`].
    unsafe fn view_len(view: &View) -> usize;
}

include!("generated/shapes.rs");

// How a key or value is passed to the archive, from a reference to it.
macro_rules! by {
    (number $reference:expr) => {
        *$reference
    };
    (bytes $reference:expr) => {
        $reference
    };
}

macro_rules! calls {
    ($(
        $module:ident, $shape:ident, $config:ident:
        $key:ty as $key_kind:ident => $value:ty $(as $value_kind:ident)?, $words:literal;
    )*) => { $(
        impl Calls for $shape {
            type Key = $key;
            type Value = $value;

            #[inline]
            fn bytes_needed(max_items: usize, percent: u8, len: &mut usize) -> u32 {
                // SAFETY: `len` is a reference.
                unsafe { sys::$module::bytes_needed(max_items, percent, len) }
            }

            #[inline]
            fn init(bytes: &mut [u8], max_items: usize, percent: u8) -> u32 {
                // SAFETY: the pointer and the length are those of a slice that is borrowed for writing.
                unsafe { sys::$module::init(bytes.as_mut_ptr(), bytes.len(), max_items, percent) }
            }

            #[inline]
            fn open(bytes: &[u8]) -> u32 {
                // SAFETY: the pointer and the length are those of a slice.
                unsafe { sys::$module::open(bytes.as_ptr(), bytes.len()) }
            }

            #[inline]
            fn check(bytes: &[u8]) -> u32 {
                // SAFETY: the pointer and the length are those of a slice.
                unsafe { sys::$module::check(bytes.as_ptr(), bytes.len()) }
            }

            fn check_within(bytes: &[u8], groups: usize) -> u32 {
                // SAFETY: the pointer and the length are those of a slice.
                unsafe { sys::$module::check_within(bytes.as_ptr(), bytes.len(), groups) }
            }

            fn open_at(bytes: &[u8], slot: &mut usize) -> u32 {
                // SAFETY: the pointers are those of a slice and of a reference that does not overlap it.
                unsafe { sys::$module::open_at(bytes.as_ptr(), bytes.len(), slot) }
            }

            fn check_at(bytes: &[u8], slot: &mut usize) -> u32 {
                // SAFETY: the pointers are those of a slice and of a reference that does not overlap it.
                unsafe { sys::$module::check_at(bytes.as_ptr(), bytes.len(), slot) }
            }

            fn check_within_at(bytes: &[u8], groups: usize, slot: &mut usize) -> u32 {
                // SAFETY: the pointers are those of a slice and of a reference that does not overlap it.
                unsafe { sys::$module::check_within_at(bytes.as_ptr(), bytes.len(), groups, slot) }
            }

            #[inline]
            fn sizes(bytes: &[u8], slots: &mut usize, max_items: &mut usize, percent: &mut u8) -> u32 {
                // SAFETY: the pointers are those of a slice and of references that do not overlap it.
                unsafe { sys::$module::sizes(bytes.as_ptr(), bytes.len(), slots, max_items, percent) }
            }

            // the value of a set is not passed
            #[allow(unused_variables)]
            #[inline]
            fn table_len(bytes: &[u8], len: &mut usize) -> u32 {
                // SAFETY: the pointers are those of a slice and of a reference that does not overlap it.
                unsafe { sys::$module::table_len(bytes.as_ptr(), bytes.len(), len) }
            }

            // the value of a set is `()`, and is not passed
            #[allow(unused_variables)]
            #[inline]
            fn insert(
                bytes: &mut [u8],
                key: &$key,
                value: $value,
                former: &mut $value,
            ) -> u32 {
                let (pointer, length) = (bytes.as_mut_ptr(), bytes.len());
                // SAFETY: the pointers are those of a slice and a reference. Both are mutable borrows, so they overlap
                // neither each other nor the key.
                unsafe {
                    sys::$module::insert(pointer, length, by!($key_kind key), $(by!($value_kind &value),)? former)
                }
            }

            #[inline]
            fn insert_all(
                bytes: &mut [u8],
                keys: &[$key],
                values: &[$value],
                accepted: &mut usize,
            ) -> u32 {
                // SAFETY: the pointers are those of slices and a reference. The mutable borrows overlap no other.
                unsafe {
                    sys::$module::insert_all(
                        bytes.as_mut_ptr(), bytes.len(), keys.as_ptr(), keys.len(),
                        values.as_ptr(), values.len(), accepted,
                    )
                }
            }

            #[inline]
            fn walk(
                bytes: &[u8],
                cursor: &mut usize,
                keys: &mut [$key],
                values: &mut [$value],
                count: &mut usize,
            ) -> u32 {
                // SAFETY: the pointers are those of slices and references. The mutable borrows overlap no other. Any
                // bytes that the call writes are a valid key or value.
                unsafe {
                    sys::$module::walk(
                        bytes.as_ptr(), bytes.len(), cursor, keys.as_mut_ptr(), keys.len(),
                        values.as_mut_ptr(), values.len(), count,
                    )
                }
            }

            #[inline]
            fn insert_order(bytes: &[u8], out: &mut [usize]) -> u32 {
                // SAFETY: the pointers are those of slices. The mutable one does not overlap the other.
                unsafe {
                    sys::$module::insert_order(bytes.as_ptr(), bytes.len(), out.as_mut_ptr(), out.len())
                }
            }

            #[inline]
            fn grow(bytes: &[u8], out: &mut [u8], len: &mut usize) -> u32 {
                // SAFETY: the pointers are those of slices and a reference. The mutable borrows overlap no other.
                unsafe {
                    sys::$module::grow(bytes.as_ptr(), bytes.len(), out.as_mut_ptr(), out.len(), len)
                }
            }

            #[inline]
            fn build(
                keys: &[$key],
                values: &[$value],
                percent: u8,
                out: &mut [u8],
                len: &mut usize,
            ) -> u32 {
                // SAFETY: the pointers are those of slices and a reference. The mutable borrows overlap no other.
                unsafe {
                    sys::$module::build(
                        keys.as_ptr(), keys.len(), values.as_ptr(), values.len(), percent,
                        out.as_mut_ptr(), out.len(), len,
                    )
                }
            }

            #[inline]
            fn build_growing(
                keys: &[$key],
                values: &[$value],
                out: &mut [u8],
                len: &mut usize,
            ) -> u32 {
                // SAFETY: the pointers are those of slices and a reference. The mutable borrows overlap no other.
                unsafe {
                    sys::$module::build_growing(
                        keys.as_ptr(), keys.len(), values.as_ptr(), values.len(),
                        out.as_mut_ptr(), out.len(), len,
                    )
                }
            }

            #[inline]
            fn open_view(bytes: &[u8]) -> (u32, View) {
                let mut view = View { bytes: bytes.as_ptr(), len: 0 };
                // SAFETY: the pointers are those of a slice and of a view that does not overlap it.
                let status = unsafe { sys::$module::open_view(bytes.as_ptr(), bytes.len(), &mut view) };
                (status, view)
            }

            #[inline]
            unsafe fn view_get(view: &View, key: &$key, value: &mut $value) -> u32 {
                // SAFETY: the caller ensures what the call requires of the view. The rest are references.
                unsafe { sys::$module::view_get(view, by!($key_kind key), value) }
            }

            #[inline]
            unsafe fn view_get_all(
                view: &View,
                keys: &[$key],
                values: &mut [$value],
                found: &mut [u8],
            ) -> u32 {
                // SAFETY: the caller ensures what the call requires of the view. The rest are slices, and the mutable
                // ones overlap no other.
                unsafe {
                    sys::$module::view_get_all(
                        view, keys.as_ptr(), keys.len(), values.as_mut_ptr(), values.len(),
                        found.as_mut_ptr(), found.len(),
                    )
                }
            }

            #[inline]
            unsafe fn view_len(view: &View) -> usize {
                // SAFETY: the caller ensures what the call requires of the view.
                unsafe { sys::$module::view_len(view) }
            }
        }
    )* };
}

each_shape!(calls);
