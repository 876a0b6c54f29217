//! Building a table from pairs.

use crate::calls::Calls;
use crate::error::Error;
use crate::shape::Shape;
use crate::{bytes_needed, zeros};

/// The load factor, in percent of slots, of tables that grow from 16 slots.
pub const DEFAULT_PERCENT: u8 = 87;

/// Collects pairs, and builds a table from them. Of equal keys the last value counts.
///
/// ```
/// # fn main() -> Result<(), odht_ffi::Error> {
/// let squares: odht_ffi::Builder<odht_ffi::U32U32> = (0..100).map(|number| (number, number * number)).collect();
/// let bytes = squares.build()?;
/// assert_eq!(odht_ffi::Table::<odht_ffi::U32U32>::open(&bytes)?.get(&12), Some(144));
/// # Ok(())
/// # }
/// ```
#[derive(Clone, Debug)]
pub struct Builder<S: Shape> {
    keys: Vec<S::Key>,
    values: Vec<S::Value>,
    percent: u8,
}

impl<S: Shape> Builder<S> {
    /// Makes a builder without pairs. In its tables, at most `percent` percent of the slots are occupied, 1 to 100.
    pub fn new(percent: u8) -> Self {
        Builder { keys: Vec::new(), values: Vec::new(), percent }
    }

    /// Adds a pair.
    pub fn push(&mut self, key: S::Key, value: S::Value) {
        self.keys.push(key);
        self.values.push(value);
    }

    /// Returns the number of pairs added. Pairs with equal keys are counted separately.
    pub fn len(&self) -> usize {
        self.keys.len()
    }

    /// Returns whether no pair was added.
    pub fn is_empty(&self) -> bool {
        self.keys.is_empty()
    }

    /// Returns the length in bytes of the table that [`Builder::build`] makes.
    ///
    /// # Errors
    ///
    /// [`Error::BadPercent`] or [`Error::Capacity`].
    pub fn bytes_needed(&self) -> Result<usize, Error> {
        bytes_needed::<S>(self.len(), self.percent)
    }

    /// Builds a table with slots for [`Builder::len`] items, inserts the pairs in order, and returns its bytes.
    ///
    /// # Errors
    ///
    /// The errors of [`Builder::bytes_needed`], or [`Error::Memory`].
    pub fn build(&self) -> Result<Vec<u8>, Error> {
        let mut bytes = zeros(self.bytes_needed()?)?;
        self.build_into(&mut bytes)?;
        Ok(bytes)
    }

    /// Builds the table at the start of `out`, and returns its length in bytes. The rest of `out` is unchanged. It
    /// allocates nothing.
    ///
    /// # Errors
    ///
    /// The errors of [`Builder::bytes_needed`], or [`Error::TooSmall`] if `out` is shorter than the table. Then `out`
    /// is unchanged.
    pub fn build_into(&self, out: &mut [u8]) -> Result<usize, Error> {
        let mut len = 0;
        let status = S::Calls::build(&self.keys, &self.values, self.percent, out, &mut len);
        Error::unless_ok(status, len)
    }

    /// Builds the table as if the number of pairs were unknown, and returns its bytes. The table starts with 16 slots
    /// at 87 percent, and grows when it is full. The percentage of the builder is not used. The order of the slots can
    /// differ from that of [`Builder::build`].
    ///
    /// # Errors
    ///
    /// [`Error::Memory`], also if no table is large enough.
    pub fn build_growing(&self) -> Result<Vec<u8>, Error> {
        // If all keys differ, the table has exactly this length. Otherwise it may be shorter.
        let most = bytes_needed::<S>(self.len(), DEFAULT_PERCENT).map_err(|_| Error::Memory)?;
        let mut bytes = zeros(most)?;
        let len = self.build_growing_into(&mut bytes)?;
        bytes.truncate(len);
        bytes.shrink_to_fit();
        Ok(bytes)
    }

    /// Works like [`Builder::build_growing`], but writes the table to the start of `out`, and returns its length in
    /// bytes. The rest of `out` is unchanged. The table grows in allocated memory, and is then copied.
    ///
    /// # Errors
    ///
    /// [`Error::Memory`], or [`Error::TooSmall`] if `out` is shorter than the table. Then `out` is unchanged.
    pub fn build_growing_into(&self, out: &mut [u8]) -> Result<usize, Error> {
        let mut len = 0;
        let status = S::Calls::build_growing(&self.keys, &self.values, out, &mut len);
        Error::unless_ok(status, len)
    }
}

impl<S: Shape> Default for Builder<S> {
    /// Makes a builder without pairs, at 87 percent.
    fn default() -> Self {
        Builder::new(DEFAULT_PERCENT)
    }
}

impl<S: Shape> Extend<(S::Key, S::Value)> for Builder<S> {
    fn extend<I: IntoIterator<Item = (S::Key, S::Value)>>(&mut self, pairs: I) {
        for (key, value) in pairs {
            self.push(key, value);
        }
    }
}

impl<S: Shape> FromIterator<(S::Key, S::Value)> for Builder<S> {
    /// Makes a builder with these pairs, at 87 percent.
    fn from_iter<I: IntoIterator<Item = (S::Key, S::Value)>>(pairs: I) -> Self {
        let mut builder = Builder::default();
        builder.extend(pairs);
        builder
    }
}
