//! Types that implement `AsRef<[u8]>`, as the bytes of a table.

use std::borrow::{Borrow, BorrowMut};

/// Wraps a type that implements `AsRef<[u8]>`, so that a table can be opened in its bytes: a mapped
/// file, a reference to a vector, an array from `include_bytes!`.
///
/// [`HashTable`](crate::HashTable) takes types that implement `Borrow<[u8]>`, as the original does:
/// a slice, a vector, an array, an `Arc<[u8]>`. `&Vec<u8>`, `&[u8; N]` and the `Mmap` of the crate
/// `memmap2` do not implement it, but they implement `AsRef<[u8]>`. This wrapper turns one trait
/// into the other. If the type also implements `AsMut<[u8]>`, as `MmapMut` does, pairs can be
/// inserted.
///
/// It costs nothing: the wrapper has the size of what it wraps, and no byte is copied. The table
/// calls `as_ref` at each call. As with all types of bytes, it panics if their length or slot count
/// differs from that of the bytes that were opened.
///
/// ```
/// use odht::{bytes_needed, configs::U64ToU32, BytesOf, HashTable};
///
/// let mut bytes = vec![0; bytes_needed::<U64ToU32>(3, 95)];
/// let mut table = HashTable::<U64ToU32, _>::try_init_in_place(BytesOf(&mut bytes), 3, 95)?;
/// table.insert(&1, &2);
///
/// let view = HashTable::<U64ToU32, _>::try_from_raw_bytes(BytesOf(&bytes))?;
/// assert_eq!(view.get(&1), Some(2));
/// # Ok::<(), odht::Error>(())
/// ```
// No `Eq` and no `Hash`: `Borrow` requires that they agree with those of the bytes, and those of
// `T` may differ.
#[derive(Clone, Copy, Debug, Default)]
pub struct BytesOf<T>(pub T);

impl<T: AsRef<[u8]>> Borrow<[u8]> for BytesOf<T> {
    #[inline(always)]
    fn borrow(&self) -> &[u8] {
        self.0.as_ref()
    }
}

impl<T: AsRef<[u8]> + AsMut<[u8]>> BorrowMut<[u8]> for BytesOf<T> {
    #[inline(always)]
    fn borrow_mut(&mut self) -> &mut [u8] {
        self.0.as_mut()
    }
}
