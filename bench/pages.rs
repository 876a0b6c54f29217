//! Memory in pages of 2 MB where the system has them, since it is asked for them by `madvise`. Elsewhere, and where it
//! refuses, the memory is in pages of the usual size.

use std::alloc::{alloc, dealloc, handle_alloc_error, Layout};
use std::ffi::{c_int, c_void};
use std::ops::Deref;

/// Tables of fewer items are in the caches, or nearly.
pub const LEAST_ITEMS: usize = 1_000_000;

const PAGE: usize = 2 << 20;
const MADV_HUGEPAGE: c_int = 14;

extern "C" {
    fn madvise(start: *mut c_void, len: usize, advice: c_int) -> c_int;
}

/// A copy of bytes in large pages.
pub struct LargePages {
    start: *mut u8,
    layout: Layout,
    len: usize,
}

impl LargePages {
    /// The advice comes before the first write to the memory, which is when pages are given.
    pub fn of(bytes: &[u8]) -> LargePages {
        let rounded = bytes.len().max(1).next_multiple_of(PAGE);
        let layout = Layout::from_size_align(rounded, PAGE).expect("it is as long as a slice");
        let start = unsafe { alloc(layout) };
        if start.is_null() {
            handle_alloc_error(layout);
        }
        unsafe { madvise(start.cast(), rounded, MADV_HUGEPAGE) };
        unsafe { start.copy_from_nonoverlapping(bytes.as_ptr(), bytes.len()) };
        let len = bytes.len();
        LargePages { start, layout, len }
    }
}

impl Deref for LargePages {
    type Target = [u8];

    fn deref(&self) -> &[u8] {
        unsafe { std::slice::from_raw_parts(self.start, self.len) }
    }
}

impl Drop for LargePages {
    fn drop(&mut self) {
        unsafe { dealloc(self.start, self.layout) };
    }
}
