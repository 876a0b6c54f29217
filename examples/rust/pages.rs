//! A large table in pages of 2 MB, like `examples/c/pages.c`. The program panics if it does not find a key.

use std::alloc::{alloc, dealloc, handle_alloc_error, Layout};
use std::ffi::{c_int, c_void};

use odht_ffi::{Error, TableMut, U64U32};

const ITEMS: usize = 200_000;
const PERCENT: u8 = 87;
const PAGE: usize = 2 << 20;
const MADV_HUGEPAGE: c_int = 14;

extern "C" {
    fn madvise(start: *mut c_void, length: usize, advice: c_int) -> c_int;
}

/// Memory in large pages if Linux has them, and otherwise in pages of the usual size.
struct LargePages {
    start: *mut u8,
    layout: Layout,
    length: usize,
}

impl LargePages {
    /// Allocates this number of zero bytes. The advice comes before the first write, because that allocates the pages.
    fn of(length: usize) -> LargePages {
        let whole = length.max(1).next_multiple_of(PAGE);
        let layout = Layout::from_size_align(whole, PAGE).expect("a table is that long");
        // SAFETY: the size of the layout is not 0.
        let start = unsafe { alloc(layout) };
        if start.is_null() {
            handle_alloc_error(layout);
        }
        // SAFETY: the memory was allocated with this layout. The advice does not change its bytes.
        unsafe { madvise(start.cast(), whole, MADV_HUGEPAGE) };
        // SAFETY: the memory has at least this length, and nothing else refers to it.
        unsafe { start.write_bytes(0, length) };
        LargePages { start, layout, length }
    }

    fn bytes(&mut self) -> &mut [u8] {
        // SAFETY: all of these bytes were written, and the slice borrows `self`.
        unsafe { std::slice::from_raw_parts_mut(self.start, self.length) }
    }
}

impl Drop for LargePages {
    fn drop(&mut self) {
        // SAFETY: the memory was allocated with this layout.
        unsafe { dealloc(self.start, self.layout) };
    }
}

fn main() -> Result<(), Error> {
    let keys: Vec<u64> = (0..ITEMS as u64).map(|index| 3 * index).collect();
    let values: Vec<u32> = (0..ITEMS as u32).collect();
    let mut memory = LargePages::of(odht_ffi::bytes_needed::<U64U32>(ITEMS, PERCENT)?);
    let mut table = TableMut::<U64U32>::init(memory.bytes(), ITEMS, PERCENT)?;
    let (accepted, answer) = table.insert_all(&keys, &values);
    answer?;
    assert_eq!(accepted, ITEMS);
    let found = table.as_table().get_all(&keys);
    assert!(found.iter().zip(&values).all(|(found, value)| *found == Some(*value)));
    Ok(())
}
