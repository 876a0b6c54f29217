//! Lists that come from C as a pointer and a length. Of an empty list the pointer may be null.

use std::slice;

/// The list that begins at a pointer.
///
/// # Safety
///
/// Where the length is not zero, the pointer is to that many items, which nobody writes while the
/// list is in use.
#[inline(always)]
pub unsafe fn list<'a, T>(items: *const T, len: usize) -> &'a [T] {
    if len == 0 {
        return &[];
    }
    // SAFETY: the caller says so.
    unsafe { slice::from_raw_parts(items, len) }
}

/// The list that begins at a pointer, to be written.
///
/// # Safety
///
/// Where the length is not zero, the pointer is to that many items, which nobody else reads or
/// writes while the list is in use.
#[inline(always)]
pub unsafe fn list_mut<'a, T>(items: *mut T, len: usize) -> &'a mut [T] {
    if len == 0 {
        return &mut [];
    }
    // SAFETY: the caller says so.
    unsafe { slice::from_raw_parts_mut(items, len) }
}

#[cfg(test)]
mod tests {
    use super::*;
    use crate::generated::calls::view::View;

    // `odht_view` of the header is a pointer and a length. Rust promises no order of the two, so it is looked at.
    #[test]
    fn a_view_is_a_pointer_and_a_length() {
        let bytes = [7_u8; 5];
        let view = View { bytes: &bytes };
        assert_eq!(size_of::<View<'_>>(), 16);
        // SAFETY: both types are sixteen bytes, each of which has a value.
        let words: [usize; 2] = unsafe { std::mem::transmute(view) };
        assert_eq!(words, [bytes.as_ptr() as usize, 5]);
    }

    #[test]
    fn an_empty_list_may_be_null() {
        // SAFETY: the length is zero.
        let (read, written) =
            unsafe { (list::<u64>(std::ptr::null(), 0), list_mut::<u64>(std::ptr::null_mut(), 0)) };
        assert_eq!((read.len(), written.len()), (0, 0));
    }
}
