//! Tables to look up in.

use std::fmt;
use std::marker::PhantomData;

use crate::calls::Calls;
use crate::error::{Error, ErrorAt, ABSENT, OK, UNMADE};
use crate::iter::Iter;
use crate::shape::Shape;
use crate::sys::View;
use crate::zeros;

/// A bound for searches, in groups of sixteen control bytes. Tables of keys whose hashes vary stay within it.
pub const DEFAULT_GROUPS: usize = 128;

/// A table in borrowed bytes, to look up in. Its header and its length are checked once, when it is opened.
///
/// It copies nothing, and there is nothing to free. The bytes may begin at any address, such as those of a mapped file
/// or of a part of one. If you map a file as a slice, ensure that no program writes the file meanwhile. Any number of
/// threads may read one table.
///
/// The comments on results are true for valid bytes: those that this library made, and all others that the whole check
/// accepts ([`Table::checked`]). [`Table::open`] reads only ten slots, so it can accept bytes that are not valid. On
/// these bytes every call is safe and returns. But [`Table::get`] may miss a key, or return a value that is stored with
/// the key in a free slot, and [`Table::len`] may return any number. docs/FORMAT.md of the repository lists the limits
/// under "Accepted but invalid bytes".
///
/// While a table exists, the borrow checker rejects writes to its bytes:
///
/// ```compile_fail,E0506
/// # let mut bytes = odht_ffi::Builder::<odht_ffi::U64U32>::new(87).build().unwrap();
/// let table = odht_ffi::Table::<odht_ffi::U64U32>::open(&bytes).unwrap();
/// bytes[16] = 0;
/// table.get(&7);
/// ```
pub struct Table<'a, S: Shape> {
    /// The view of `bytes`, which `open` has accepted.
    view: View,
    bytes: &'a [u8],
    shape: PhantomData<S>,
}

// SAFETY: the pointer of the view is that of `bytes`, which nothing writes while the table exists. So a table is like
// the slice, which may be sent to other threads and used by many.
unsafe impl<S: Shape> Send for Table<'_, S> {}
// SAFETY: as above.
unsafe impl<S: Shape> Sync for Table<'_, S> {}

impl<S: Shape> Clone for Table<'_, S> {
    fn clone(&self) -> Self {
        *self
    }
}

impl<S: Shape> Copy for Table<'_, S> {}

/// The slot count, the maximum and the load factor of a table.
#[derive(Clone, Copy, Debug, PartialEq, Eq)]
pub struct Sizes {
    /// The number of slots.
    pub slots: usize,
    /// The maximum number of items for this slot count and load factor.
    pub max_items: usize,
    /// The load factor in percent, rounded down. It may be one less than the percentage that the table was made with.
    pub percent: u8,
}

/// The result of one call of [`Table::walk`].
#[derive(Clone, Copy, Debug, PartialEq, Eq)]
pub struct Walked {
    /// The number of pairs written, at the start of the slices.
    pub count: usize,
    /// Whether there are more pairs, because the slices were full.
    pub more: bool,
}

impl<'a, S: Shape> Table<'a, S> {
    /// Opens bytes: checks the header, the length and the first ten slots, in constant time.
    ///
    /// # Errors
    ///
    /// The first of [`Error::TooShort`] to [`Error::ControlMismatch`] (1 to 9) that applies.
    #[inline]
    pub fn open(bytes: &'a [u8]) -> Result<Self, Error> {
        let (status, view) = S::Calls::open_view(bytes);
        Error::unless_ok(status, Table { view, bytes, shape: PhantomData })
    }

    /// Opens bytes after the whole check, which reads every byte and accepts only valid ones. If the keys vary, it
    /// takes about the time of looking up each key. If many keys have one hash, the time grows with the square of the
    /// number of slots. For untrusted bytes use [`Table::checked_within`].
    ///
    /// # Errors
    ///
    /// The first of [`Error::TooShort`] to [`Error::Unreachable`] (1 to 16) that applies.
    pub fn checked(bytes: &'a [u8]) -> Result<Self, Error> {
        Error::unless_ok(S::Calls::check(bytes), ())?;
        Table::open(bytes)
    }

    /// Works like [`Table::checked`] in bounded time, for untrusted bytes.
    ///
    /// It also checks that in the probe order from each slot a free slot comes within `groups` groups of sixteen
    /// control bytes. Then no search, for a present or an absent key, reads more groups. Tables of keys whose hashes
    /// vary stay within [`DEFAULT_GROUPS`]. For `s` slots the check reads at most `2 * s * groups` groups.
    ///
    /// # Errors
    ///
    /// The errors of [`Table::checked`], or [`Error::SearchTooLong`], which comes right before [`Error::Unreachable`].
    ///
    /// [`DEFAULT_GROUPS`]: crate::DEFAULT_GROUPS
    pub fn checked_within(bytes: &'a [u8], groups: usize) -> Result<Self, Error> {
        Error::unless_ok(S::Calls::check_within(bytes, groups), ())?;
        Table::open(bytes)
    }

    /// Checks what [`Table::open`] checks, and returns the first error with its slot.
    ///
    /// # Errors
    ///
    /// The error of [`Table::open`], with its slot.
    pub fn open_at(bytes: &[u8]) -> Result<(), ErrorAt> {
        let mut slot = 0;
        let status = S::Calls::open_at(bytes, &mut slot);
        ErrorAt::unless_ok(status, slot)
    }

    /// Makes the whole check, and returns the first error with its slot. The cost is that of [`Table::checked`].
    ///
    /// ```
    /// # use odht_ffi::{Builder, Error, ErrorAt, Table, U64U32};
    /// let mut bytes = [(1, 2)].into_iter().collect::<Builder<U64U32>>().build()?;
    /// assert_eq!(Table::<U64U32>::check_at(&bytes), Ok(()));
    /// bytes[32] = 1; // in the entry of slot 0, which is free
    /// assert_eq!(Table::<U64U32>::check_at(&bytes), Err(ErrorAt { error: Error::NonZeroEmpty, slot: Some(0) }));
    /// # Ok::<(), Error>(())
    /// ```
    ///
    /// # Errors
    ///
    /// The error of [`Table::checked`], with its slot.
    pub fn check_at(bytes: &[u8]) -> Result<(), ErrorAt> {
        let mut slot = 0;
        let status = S::Calls::check_at(bytes, &mut slot);
        ErrorAt::unless_ok(status, slot)
    }

    /// Works like [`Table::check_at`] with the bound of [`Table::checked_within`], for untrusted bytes.
    ///
    /// # Errors
    ///
    /// The error of [`Table::checked_within`], with its slot.
    pub fn check_within_at(bytes: &[u8], groups: usize) -> Result<(), ErrorAt> {
        let mut slot = 0;
        let status = S::Calls::check_within_at(bytes, groups, &mut slot);
        ErrorAt::unless_ok(status, slot)
    }

    /// Returns the length in bytes of the table at the start of `bytes`, which its header determines. `bytes` may be
    /// the rest of a file: the call reads no slot, and nothing after the table. Pass exactly these bytes to
    /// [`Table::open`].
    ///
    /// # Errors
    ///
    /// The first of [`Error::TooShort`] to [`Error::WrongLength`] (1 to 7) that applies. `WrongLength` only if there
    /// are fewer bytes than the table needs.
    pub fn table_len(bytes: &[u8]) -> Result<usize, Error> {
        let mut len = 0;
        Error::unless_ok(S::Calls::table_len(bytes, &mut len), ())?;
        Ok(len)
    }

    /// Opens the table at the start of longer bytes, such as the rest of a file, as [`Table::open`] does. It also
    /// returns the bytes after the table, which it does not read. It takes constant time.
    ///
    /// ```
    /// # use odht_ffi::{Builder, Table, U64U32};
    /// let mut file = [(1, 2)].into_iter().collect::<Builder<U64U32>>().build()?;
    /// file.extend(b"and more");
    /// let (table, rest) = Table::<U64U32>::open_prefix(&file)?;
    /// assert_eq!((table.get(&1), rest), (Some(2), &b"and more"[..]));
    /// # Ok::<(), odht_ffi::Error>(())
    /// ```
    ///
    /// # Errors
    ///
    /// The errors of [`Table::open`], but [`Error::WrongLength`] only if there are fewer bytes than the table needs.
    #[inline]
    pub fn open_prefix(bytes: &'a [u8]) -> Result<(Self, &'a [u8]), Error> {
        let (table, rest) = bytes.split_at(Table::<S>::table_len(bytes)?);
        Ok((Table::open(table)?, rest))
    }

    /// # Safety
    ///
    /// `open` or `init` of this shape has returned `OK` for the bytes. Since then only inserts of this shape have
    /// written them.
    pub(crate) unsafe fn of_accepted(bytes: &'a [u8]) -> Self {
        let view = View { bytes: bytes.as_ptr(), len: bytes.len() };
        Table { view, bytes, shape: PhantomData }
    }

    /// Makes the whole check of the opened bytes.
    ///
    /// # Errors
    ///
    /// The errors of [`Table::checked`].
    pub fn check(&self) -> Result<(), Error> {
        Error::unless_ok(S::Calls::check(self.bytes), ())
    }

    /// Makes the whole check of the opened bytes with a bound for searches, in groups.
    ///
    /// # Errors
    ///
    /// The errors of [`Table::checked_within`].
    pub fn check_within(&self, groups: usize) -> Result<(), Error> {
        Error::unless_ok(S::Calls::check_within(self.bytes, groups), ())
    }

    /// Returns the bytes of the table.
    pub fn bytes(&self) -> &'a [u8] {
        self.bytes
    }

    /// Returns the value of a key, or `None` if the key is absent.
    #[inline]
    pub fn get(&self, key: &S::Key) -> Option<S::Value> {
        let mut value = S::Value::default();
        // SAFETY: the view was opened. `bytes` is borrowed since then, so nothing writes them.
        match unsafe { S::Calls::view_get(&self.view, key, &mut value) } {
            OK => Some(value),
            status => {
                debug_assert_eq!(status, ABSENT);
                None
            }
        }
    }

    /// Returns whether a key is present.
    #[inline]
    pub fn contains(&self, key: &S::Key) -> bool {
        self.get(key).is_some()
    }

    /// Returns the value of each key, in the order of the keys. It is faster than a call of [`Table::get`] for each
    /// key. It allocates the result.
    pub fn get_all(&self, keys: &[S::Key]) -> Vec<Option<S::Value>> {
        let mut values = vec![S::Value::default(); keys.len()];
        let mut found = vec![0; keys.len()];
        let written = self.get_all_into(keys, &mut values, &mut found);
        debug_assert_eq!(written, Ok(()));
        let pairs = found.iter().zip(values);
        pairs.map(|(found, value)| (*found == 1).then_some(value)).collect()
    }

    /// Returns whether each key is present, in the order of the keys.
    pub fn contains_all(&self, keys: &[S::Key]) -> Vec<bool> {
        self.get_all(keys).iter().map(Option::is_some).collect()
    }

    /// Works like [`Table::get_all`], but allocates nothing. For a present key, `found` becomes 1 and `values` the
    /// value at the key's index. For an absent key, `found` becomes 0 and `values` is unchanged there.
    ///
    /// # Errors
    ///
    /// [`Error::BadLengths`] if the slices have different lengths. Then `values` and `found` are unchanged.
    pub fn get_all_into(&self, keys: &[S::Key], values: &mut [S::Value], found: &mut [u8]) -> Result<(), Error> {
        // SAFETY: the view was opened. `bytes` is borrowed since then, so nothing writes them.
        Error::unless_ok(unsafe { S::Calls::view_get_all(&self.view, keys, values, found) }, ())
    }

    /// Returns the item count in the header. If the bytes are not valid it may be any number: do not allocate by it.
    #[inline]
    pub fn len(&self) -> usize {
        // SAFETY: the view was opened. `bytes` is borrowed since then, so nothing writes them.
        unsafe { S::Calls::view_len(&self.view) }
    }

    /// Returns whether the item count in the header is 0.
    pub fn is_empty(&self) -> bool {
        self.len() == 0
    }

    /// Returns the slot count, the maximum number of items, and the load factor in percent.
    pub fn sizes(&self) -> Sizes {
        let mut sizes = Sizes { slots: 0, max_items: 0, percent: 0 };
        let Sizes { slots, max_items, percent } = &mut sizes;
        let status = S::Calls::sizes(self.bytes, slots, max_items, percent);
        debug_assert_eq!(status, OK, "opened bytes have a header");
        sizes
    }

    /// Iterates over the pairs in slot order, one for each occupied slot. It does not use the header's item count.
    pub fn iter(&self) -> Iter<'a, S> {
        Iter::new(self.bytes, self.sizes().slots)
    }

    /// Iterates over the keys in slot order, as [`Table::iter`] does over the pairs.
    pub fn keys(&self) -> impl Iterator<Item = S::Key> + 'a {
        self.iter().map(|(key, _)| key)
    }

    /// Writes the pairs from slot `cursor` on, in slot order, to the start of the slices. Moves `cursor` to the slot to
    /// continue at. Start with a `cursor` of 0. The rest of the slices is unchanged.
    ///
    /// # Errors
    ///
    /// [`Error::BadLengths`] if the slices have different lengths. Then nothing is written.
    pub fn walk(&self, cursor: &mut usize, keys: &mut [S::Key], values: &mut [S::Value]) -> Result<Walked, Error> {
        let mut count = 0;
        let status = S::Calls::walk(self.bytes, cursor, keys, values, &mut count);
        match Error::unless_ok(status, ()) {
            Ok(()) => Ok(Walked { count, more: false }),
            Err(Error::TooSmall) => Ok(Walked { count, more: true }),
            Err(refused) => Err(refused),
        }
    }

    /// Finds an order of inserts that makes exactly these bytes, from an empty table of the same slot count and load
    /// factor. Returns the occupied slots, each once, in such an order, or `None` if no list of inserts makes the
    /// bytes. It makes the whole check first.
    ///
    /// # Errors
    ///
    /// The errors of [`Table::checked`], or [`Error::Memory`].
    pub fn insert_order(&self) -> Result<Option<Vec<usize>>, Error> {
        // If the header's count exceeds the slots, the check returns an error, and nothing of that size is allocated.
        let count = self.len();
        let places = if count <= self.sizes().slots { count } else { 0 };
        let mut order = zeros(places)?;
        Ok(self.insert_order_into(&mut order)?.then_some(order))
    }

    /// Works like [`Table::insert_order`], but allocates nothing. Writes the order to `out`, and returns whether there
    /// is one. If there is none, the content of `out` is unspecified.
    ///
    /// # Errors
    ///
    /// The errors of [`Table::checked`], or [`Error::BadLengths`] if the bytes are valid and the length of `out` is not
    /// the number of items. Then `out` is unchanged.
    pub fn insert_order_into(&self, out: &mut [usize]) -> Result<bool, Error> {
        match S::Calls::insert_order(self.bytes, out) {
            UNMADE => Ok(false),
            status => Error::unless_ok(status, true),
        }
    }

    /// Returns the bytes of a larger copy of the table, for twice the number of items and at least one. The load factor
    /// is the same, and the pairs are placed in slot order.
    ///
    /// # Errors
    ///
    /// [`Error::LoadFactorTooSmall`], [`Error::Capacity`] or [`Error::Memory`]. [`Error::TooManyItems`] if the header's
    /// item count exceeds the maximum.
    pub fn grown(&self) -> Result<Vec<u8>, Error> {
        let mut larger = zeros(self.grown_len()?)?;
        self.grow_into(&mut larger)?;
        Ok(larger)
    }

    /// Returns the length in bytes of the grown table. For a table at its maximum this is about twice its own length,
    /// if the maximum is at least one.
    ///
    /// # Errors
    ///
    /// The errors of [`Table::grown`], except [`Error::Memory`].
    pub fn grown_len(&self) -> Result<usize, Error> {
        if self.len() > self.sizes().max_items {
            // Otherwise a wrong number would decide how much is allocated.
            return Err(Error::TooManyItems);
        }
        let mut len = 0;
        match Error::unless_ok(S::Calls::grow(self.bytes, &mut [], &mut len), len) {
            Err(Error::TooSmall) => Ok(len),
            other => other,
        }
    }

    /// Writes the grown table to the start of `out`, and returns its length in bytes. The rest of `out` is unchanged.
    ///
    /// # Errors
    ///
    /// [`Error::TooSmall`] if `out` is shorter than the grown table, [`Error::LoadFactorTooSmall`] or
    /// [`Error::Capacity`]. Then `out` is unchanged.
    pub fn grow_into(&self, out: &mut [u8]) -> Result<usize, Error> {
        let mut len = 0;
        let status = S::Calls::grow(self.bytes, out, &mut len);
        Error::unless_ok(status, len)
    }
}

impl<S: Shape> fmt::Debug for Table<'_, S> {
    fn fmt(&self, formatter: &mut fmt::Formatter<'_>) -> fmt::Result {
        let mut table = formatter.debug_struct("Table");
        table.field("shape", &S::default()).field("len", &self.len());
        table.field("slots", &self.sizes().slots).finish_non_exhaustive()
    }
}
