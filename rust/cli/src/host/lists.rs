//! Lists whose memory may be refused.

use crate::shim::{AllocError, Global};

/// A list without items.
pub fn empty<T>(_alloc: Global) -> Vec<T> {
    Vec::new()
}

/// An item that many times.
pub fn filled<T: Clone>(alloc: Global, item: T, count: usize) -> Result<Vec<T>, AllocError> {
    let mut list = crate::shim::with_capacity(alloc, count)?;
    list.resize(count, item);
    Ok(list)
}

/// Methods of lists that may be refused memory. A list is then as it was.
pub trait ListCalls<T> {
    /// `push`.
    fn try_push(&mut self, item: T) -> Result<(), AllocError>;

    /// `extend_from_slice`.
    fn try_extend_from_slice(&mut self, items: &[T]) -> Result<(), AllocError>
    where
        T: Copy;
}

impl<T> ListCalls<T> for Vec<T> {
    #[inline]
    fn try_push(&mut self, item: T) -> Result<(), AllocError> {
        if self.len() == self.capacity() {
            self.try_reserve(1).map_err(|_| AllocError)?;
        }
        self.push(item);
        Ok(())
    }

    #[inline]
    fn try_extend_from_slice(&mut self, items: &[T]) -> Result<(), AllocError>
    where
        T: Copy,
    {
        self.try_reserve(items.len()).map_err(|_| AllocError)?;
        self.extend_from_slice(items);
        Ok(())
    }
}

/// A method of iterators that may be refused memory.
pub trait IteratorCalls: Iterator + Sized {
    /// `collect`, of a list.
    fn try_collect(self, alloc: Global) -> Result<Vec<Self::Item>, AllocError> {
        crate::shim::collect(self, alloc)
    }
}

impl<I: Iterator> IteratorCalls for I {}

#[cfg(test)]
mod tests {
    use super::*;

    #[test]
    fn lists_have_their_items() {
        let mut list = empty(Global);
        assert_eq!((list.try_push(1), list.try_extend_from_slice(&[2, 3])), (Ok(()), Ok(())));
        assert_eq!(list, [1, 2, 3]);
        assert_eq!(filled(Global, None::<u64>, 2), Ok(vec![None, None]));
        assert_eq!((0..3).try_collect(Global), Ok(vec![0, 1, 2]));
    }

    #[test]
    fn memory_that_cannot_be_had_is_refused() {
        assert_eq!(filled(Global, 0_u64, usize::MAX / 8), Err(AllocError));
    }

    // Of items without a size only a number is stored, which ends.
    #[test]
    fn a_list_that_cannot_grow_is_as_it_was() {
        let mut list = vec![(); usize::MAX];
        assert_eq!((list.try_push(()), list.len()), (Err(AllocError), usize::MAX));
    }
}
