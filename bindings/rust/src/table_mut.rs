//! Tables to insert into.

use std::fmt;
use std::marker::PhantomData;

use crate::calls::Calls;
use crate::error::{Error, REPLACED};
use crate::shape::Shape;
use crate::table::Table;
use crate::zeros;

/// A table in borrowed bytes, to insert into. It cannot grow there: [`TableMut::grow_into`] makes a larger one.
///
/// As for [`Table`], the bytes need not be valid. An insert into invalid bytes is safe. It changes one value that is
/// stored with an equal key, or adds one entry if the item count is below the maximum, or returns [`Error::Full`].
pub struct TableMut<'a, S: Shape> {
    /// Bytes that `open` has accepted or `init` has written, and that only inserts have written since.
    bytes: &'a mut [u8],
    shape: PhantomData<S>,
}

impl<'a, S: Shape> TableMut<'a, S> {
    /// Makes an empty table in the bytes. Their length must be what [`crate::bytes_needed`] returns for the same
    /// arguments. Their former content does not matter.
    ///
    /// # Errors
    ///
    /// [`Error::BadPercent`], [`Error::Capacity`], or [`Error::InitLength`] if the bytes have another length. Then they
    /// are unchanged.
    pub fn init(bytes: &'a mut [u8], max_items: usize, percent: u8) -> Result<Self, Error> {
        let status = S::Calls::init(bytes, max_items, percent);
        Error::unless_ok(status, TableMut { bytes, shape: PhantomData })
    }

    /// Opens bytes, as [`Table::open`] does.
    ///
    /// # Errors
    ///
    /// The first of [`Error::TooShort`] to [`Error::ControlMismatch`] (1 to 9) that applies.
    pub fn open(bytes: &'a mut [u8]) -> Result<Self, Error> {
        let status = S::Calls::open(bytes);
        Error::unless_ok(status, TableMut { bytes, shape: PhantomData })
    }

    /// Opens bytes after the whole check, as [`Table::checked`] does.
    ///
    /// # Errors
    ///
    /// The first of [`Error::TooShort`] to [`Error::Unreachable`] (1 to 16) that applies.
    pub fn checked(bytes: &'a mut [u8]) -> Result<Self, Error> {
        Error::unless_ok(S::Calls::check(bytes), ())?;
        TableMut::open(bytes)
    }

    /// Opens untrusted bytes after the whole check in bounded time, as [`Table::checked_within`] does. Inserts may
    /// lengthen searches: [`Table::check_within`] checks the bound again.
    ///
    /// # Errors
    ///
    /// The errors of [`Table::checked_within`].
    pub fn checked_within(bytes: &'a mut [u8], groups: usize) -> Result<Self, Error> {
        Error::unless_ok(S::Calls::check_within(bytes, groups), ())?;
        TableMut::open(bytes)
    }

    /// Inserts a key with its value, or replaces the value of a present key. Returns the former value, or `None` if the
    /// key is new.
    ///
    /// # Errors
    ///
    /// [`Error::Full`] if the key is new and the table is at its maximum. Then nothing is changed.
    #[inline]
    pub fn insert(&mut self, key: &S::Key, value: S::Value) -> Result<Option<S::Value>, Error> {
        let mut former = S::Value::default();
        match S::Calls::insert(self.bytes, key, value, &mut former) {
            REPLACED => Ok(Some(former)),
            status => Error::unless_ok(status, None),
        }
    }

    /// Inserts each key with the value at its index, in order, and stops at the first pair that does not fit. Returns
    /// the number of inserted pairs, and whether all were inserted. It is faster than a call of [`TableMut::insert`]
    /// for each pair.
    ///
    /// # Errors
    ///
    /// [`Error::Full`] if a pair does not fit. The pairs before it are in the table. [`Error::BadLengths`] if the
    /// numbers of keys and values differ. Then nothing is changed.
    pub fn insert_all(&mut self, keys: &[S::Key], values: &[S::Value]) -> (usize, Result<(), Error>) {
        let mut accepted = 0;
        let status = S::Calls::insert_all(self.bytes, keys, values, &mut accepted);
        (accepted, Error::unless_ok(status, ()))
    }

    /// Returns the table, to look up in.
    #[inline]
    pub fn as_table(&self) -> Table<'_, S> {
        // SAFETY: the bytes were accepted when this was made. Since then this has borrowed them mutably, and only its
        // inserts write them.
        unsafe { Table::of_accepted(self.bytes) }
    }

    /// Returns the table, to look up in while the bytes are borrowed.
    pub fn into_table(self) -> Table<'a, S> {
        // SAFETY: as above.
        unsafe { Table::of_accepted(self.bytes) }
    }

    /// Makes a larger copy of the table, as [`Table::grown`] does, and stores its bytes in `larger`. The former content
    /// of `larger` is dropped.
    ///
    /// # Errors
    ///
    /// The errors of [`Table::grown`]. If the bytes of this table are not valid, also [`Error::NonZeroEmpty`] or
    /// [`Error::ControlMismatch`]. Then `larger` is unchanged.
    pub fn grow_into<'b>(&self, larger: &'b mut Vec<u8>) -> Result<TableMut<'b, S>, Error> {
        let grown = self.as_table().grown()?;
        Table::<S>::open(&grown)?;
        *larger = grown;
        Ok(TableMut { bytes: larger, shape: PhantomData })
    }
}

impl<S: Shape> fmt::Debug for TableMut<'_, S> {
    fn fmt(&self, formatter: &mut fmt::Formatter<'_>) -> fmt::Result {
        let table = self.as_table();
        let mut fields = formatter.debug_struct("TableMut");
        fields.field("shape", &S::default()).field("len", &table.len());
        fields.field("slots", &table.sizes().slots).finish_non_exhaustive()
    }
}

/// Returns the length in bytes of a table for `max_items` items. At most `percent` percent of its slots may be
/// occupied, 1 to 100.
///
/// # Errors
///
/// [`Error::BadPercent`], or [`Error::Capacity`] if no slot count is large enough or the length does not fit `usize`.
pub fn bytes_needed<S: Shape>(max_items: usize, percent: u8) -> Result<usize, Error> {
    let mut len = 0;
    let status = S::Calls::bytes_needed(max_items, percent, &mut len);
    Error::unless_ok(status, len)
}

/// Returns the bytes of an empty table for `max_items` items. At most `percent` percent of its slots may be occupied,
/// 1 to 100.
///
/// # Errors
///
/// The errors of [`bytes_needed`], or [`Error::Memory`].
pub fn empty_table<S: Shape>(max_items: usize, percent: u8) -> Result<Vec<u8>, Error> {
    let mut bytes = zeros(bytes_needed::<S>(max_items, percent)?)?;
    TableMut::<S>::init(&mut bytes, max_items, percent)?;
    Ok(bytes)
}

/// Inserts a key with its value, or replaces the value of a present key, and grows the table if it is full. After a
/// growth, `bytes` holds the larger table. Returns the former value, or `None` if the key is new.
///
/// It opens the bytes on each call. For many inserts in a row, keep a [`TableMut`] until [`Error::Full`].
///
/// # Errors
///
/// The errors of [`TableMut::open`] and [`Table::grown`]. If the bytes are not valid, also [`Error::Full`]. Then they
/// are unchanged.
///
/// ```
/// # fn main() -> Result<(), odht_ffi::Error> {
/// let mut bytes = odht_ffi::empty_table::<odht_ffi::U64U32>(0, 87)?;
/// for key in 0..1000 {
///     odht_ffi::insert_growing::<odht_ffi::U64U32>(&mut bytes, &key, 7)?;
/// }
/// assert_eq!(odht_ffi::Table::<odht_ffi::U64U32>::open(&bytes)?.len(), 1000);
/// # Ok(())
/// # }
/// ```
pub fn insert_growing<S: Shape>(bytes: &mut Vec<u8>, key: &S::Key, value: S::Value) -> Result<Option<S::Value>, Error> {
    let mut table = TableMut::<S>::open(bytes)?;
    match table.insert(key, value) {
        Err(Error::Full) => (),
        answer => return answer,
    }
    let mut larger = table.as_table().grown()?;
    let former = TableMut::<S>::open(&mut larger)?.insert(key, value)?;
    *bytes = larger;
    Ok(former)
}
