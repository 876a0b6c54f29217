//! Lists whose memory may be refused.

use alloc::alloc::{alloc_zeroed, Layout};
use alloc::vec::Vec;

/// The allocator, which in Rattle is an argument.
#[derive(Clone, Copy, PartialEq, Eq, Debug, Default)]
pub struct Global;

/// That memory was refused.
#[derive(Clone, Copy, PartialEq, Eq, Debug)]
pub struct AllocError;

/// A list of that many zeros. The allocator is asked for zeros, so that a large list is not written
/// twice.
#[allow(unsafe_code)]
pub fn zeroed_bytes(_alloc: Global, len: usize) -> Result<Vec<u8>, AllocError> {
    let layout = Layout::array::<u8>(len).map_err(|_| AllocError)?;
    if len == 0 {
        return Ok(Vec::new());
    }
    // SAFETY: the size of the layout is `len`, which is not zero.
    let bytes = unsafe { alloc_zeroed(layout) };
    if bytes.is_null() {
        return Err(AllocError);
    }
    // SAFETY: the global allocator, which is that of `Vec`, gave `bytes` for the layout of `len` items of `u8`, and
    // each of them is zero.
    Ok(unsafe { Vec::from_raw_parts(bytes, len, len) })
}

/// An empty list with room for `len` items.
pub fn with_capacity<T>(_alloc: Global, len: usize) -> Result<Vec<T>, AllocError> {
    let mut list = Vec::new();
    list.try_reserve_exact(len).map_err(|_| AllocError)?;
    Ok(list)
}

/// A copy of the items.
pub fn to_vec<T: Copy>(items: &[T], alloc: Global) -> Result<Vec<T>, AllocError> {
    let mut list = with_capacity(alloc, items.len())?;
    list.extend_from_slice(items);
    Ok(list)
}

/// The items of an iterator. Where room for as many as it announces is refused, the list grows as the items come.
pub fn collect<I: Iterator>(mut items: I, alloc: Global) -> Result<Vec<I::Item>, AllocError> {
    let mut list = with_capacity(alloc, items.size_hint().0).unwrap_or_default();
    while let Some(item) = items.next() {
        if list.len() == list.capacity() {
            let more = items.size_hint().0.saturating_add(1);
            list.try_reserve(more).or_else(|_| list.try_reserve(1)).map_err(|_| AllocError)?;
        }
        list.push(item);
    }
    Ok(list)
}

#[cfg(test)]
mod tests {
    use super::*;

    #[test]
    fn memory_that_cannot_be_had_is_refused() {
        assert_eq!(zeroed_bytes(Global, usize::MAX), Err(AllocError));
        assert_eq!(zeroed_bytes(Global, isize::MAX as usize), Err(AllocError));
        assert!(with_capacity::<u64>(Global, usize::MAX / 4).is_err());
    }

    #[test]
    fn lists_have_their_items() {
        assert_eq!(zeroed_bytes(Global, 0), Ok(vec![]));
        assert_eq!(zeroed_bytes(Global, 3), Ok(vec![0; 3]));
        assert_eq!(to_vec(&[1, 2, 3], Global), Ok(vec![1, 2, 3]));
        assert_eq!(collect(0..1000, Global), Ok((0..1000).collect()));
        assert_eq!(
            collect((0..1000).filter(|n| n % 3 == 0), Global).map(|list| list.len()),
            Ok(334)
        );
    }

    // An iterator that announces more than memory can hold.
    struct Boaster(u8);

    impl Iterator for Boaster {
        type Item = u8;

        fn next(&mut self) -> Option<u8> {
            self.0 = self.0.checked_sub(1)?;
            Some(self.0)
        }

        fn size_hint(&self) -> (usize, Option<usize>) {
            (usize::MAX, None)
        }
    }

    #[test]
    fn items_are_collected_whatever_is_announced() {
        assert_eq!(collect(Boaster(3), Global), Ok(vec![2, 1, 0]));
    }
}
