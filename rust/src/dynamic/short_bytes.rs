//! A value of a table, by value.

use crate::generated::raw::raw_table;
use std::fmt;
use std::ops::Deref;

/// A copy of a value of a table, such as the one that an insert has overwritten. It holds at most
/// 255 bytes, and needs no allocation.
///
/// ```
/// # use odht::{configs::U64ToU32, dynamic::DynTable, FxHashFn, HashTableOwned};
/// # let mut table = HashTableOwned::<U64ToU32>::default();
/// # table.insert(&1, &2);
/// let mut table = DynTable::<FxHashFn, _>::open_as_stated(table.into_raw_bytes())?;
/// if let Some(former) = table.insert(&1_u64.to_le_bytes(), &3_u32.to_le_bytes())? {
///     assert_eq!(former.as_slice(), 2_u32.to_le_bytes());
///     assert_eq!(former.len(), 4);
/// }
/// # Ok::<(), odht::dynamic::DynError>(())
/// ```
#[derive(Clone, Copy)]
pub struct ShortBytes(pub(super) raw_table::ShortBytes);

impl ShortBytes {
    // A copy of these bytes, of which there are at most 255.
    #[inline(always)]
    pub(super) fn of(value: &[u8]) -> ShortBytes {
        ShortBytes(raw_table::ShortBytes::of(value))
    }

    /// Returns the bytes.
    #[inline]
    #[must_use]
    pub fn as_slice(&self) -> &[u8] {
        self.0.as_slice()
    }
}

impl Deref for ShortBytes {
    type Target = [u8];

    #[inline]
    fn deref(&self) -> &[u8] {
        self.as_slice()
    }
}

impl AsRef<[u8]> for ShortBytes {
    #[inline]
    fn as_ref(&self) -> &[u8] {
        self.as_slice()
    }
}

impl PartialEq for ShortBytes {
    fn eq(&self, other: &Self) -> bool {
        self.as_slice() == other.as_slice()
    }
}

impl Eq for ShortBytes {}

impl fmt::Debug for ShortBytes {
    fn fmt(&self, f: &mut fmt::Formatter<'_>) -> fmt::Result {
        self.as_slice().fmt(f)
    }
}
