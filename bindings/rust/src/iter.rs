//! Iteration over the pairs of a table.

use std::fmt;
use std::iter::FusedIterator;

use crate::calls::Calls;
use crate::error::{Error, OK};
use crate::shape::Shape;
use crate::table::Table;

/// The number of pairs that are read at once.
const BLOCK: usize = 64;

/// Iterates over the pairs of a table in slot order. It reads them in blocks, and allocates nothing. It ends after the
/// last slot, and does not use the header's item count.
#[derive(Clone)]
pub struct Iter<'a, S: Shape> {
    bytes: &'a [u8],
    slots: usize,
    /// The slot to continue at.
    cursor: usize,
    /// Whether there may be pairs from that slot on.
    more: bool,
    keys: [S::Key; BLOCK],
    values: [S::Value; BLOCK],
    /// The indices of the pairs in the block that were not returned yet.
    next: usize,
    end: usize,
}

impl<'a, S: Shape> Iter<'a, S> {
    /// Iterates over the pairs in the bytes of an opened table with `slots` slots.
    pub(crate) fn new(bytes: &'a [u8], slots: usize) -> Self {
        Iter {
            bytes,
            slots,
            cursor: 0,
            more: true,
            keys: [S::Key::default(); BLOCK],
            values: [S::Value::default(); BLOCK],
            next: 0,
            end: 0,
        }
    }

    /// Reads the next block, after all pairs of this one were returned.
    #[cold]
    fn read(&mut self) {
        let mut count = 0;
        let (keys, values) = (&mut self.keys, &mut self.values);
        let status = S::Calls::walk(self.bytes, &mut self.cursor, keys, values, &mut count);
        debug_assert!(status == OK || Error::from_number(status) == Error::TooSmall);
        // A block that is not full is the last one, so this ends.
        self.more = status != OK && count == BLOCK;
        self.next = 0;
        self.end = count.min(BLOCK);
    }
}

impl<S: Shape> Iterator for Iter<'_, S> {
    type Item = (S::Key, S::Value);

    #[inline]
    fn next(&mut self) -> Option<(S::Key, S::Value)> {
        if self.next == self.end && self.more {
            self.read();
        }
        if self.next == self.end {
            return None;
        }
        let place = self.next;
        self.next += 1;
        Some((self.keys[place], self.values[place]))
    }

    /// The lower bound is the rest of the block. The upper bound adds one pair for each slot after the block. The
    /// header's item count is not used, because it may be wrong.
    fn size_hint(&self) -> (usize, Option<usize>) {
        let read = self.end - self.next;
        let unread = if self.more { self.slots.saturating_sub(self.cursor) } else { 0 };
        (read, read.checked_add(unread))
    }
}

impl<S: Shape> FusedIterator for Iter<'_, S> {}

impl<S: Shape> fmt::Debug for Iter<'_, S> {
    fn fmt(&self, formatter: &mut fmt::Formatter<'_>) -> fmt::Result {
        let mut iter = formatter.debug_struct("Iter");
        iter.field("shape", &S::default()).field("cursor", &self.cursor).finish_non_exhaustive()
    }
}

impl<'a, S: Shape> IntoIterator for Table<'a, S> {
    type Item = (S::Key, S::Value);
    type IntoIter = Iter<'a, S>;

    fn into_iter(self) -> Iter<'a, S> {
        self.iter()
    }
}

impl<'a, S: Shape> IntoIterator for &Table<'a, S> {
    type Item = (S::Key, S::Value);
    type IntoIter = Iter<'a, S>;

    fn into_iter(self) -> Iter<'a, S> {
        self.iter()
    }
}
