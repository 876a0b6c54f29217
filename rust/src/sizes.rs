//! The lengths of tables, the whole check of their bytes, and the panics of calls that return no
//! error.

use crate::config::{Config, Proved};
use crate::generated::header::error::Error;
use crate::generated::{raw, tables};
use alloc::alloc::{handle_alloc_error, Layout};

/// Returns the length in bytes of a new table for `max_item_count` items.
/// [`HashTable::try_init_in_place`] needs bytes of this length. `max_load_factor_percent` is the
/// percentage of the slots that may be occupied.
///
/// ```
/// use odht::{bytes_needed, configs::U64ToU32};
///
/// // 32 bytes of header, 16 entries of 12 bytes, 16 control bytes and 16 of their mirror
/// assert_eq!(bytes_needed::<U64ToU32>(3, 95), 256);
/// ```
///
/// # Panics
///
/// Panics if the percentage is not from 1 to 100, or if no table is large enough.
///
/// [`HashTable::try_init_in_place`]: crate::HashTable::try_init_in_place
#[track_caller]
#[must_use]
pub fn bytes_needed<C: Config>(max_item_count: usize, max_load_factor_percent: u8) -> usize {
    match try_bytes_needed::<C>(max_item_count, max_load_factor_percent) {
        Ok(len) => len,
        Err(e) => refused(e, 0),
    }
}

/// Like [`bytes_needed`], but returns an error if no table is large enough.
///
/// ```
/// use odht::{configs::U64ToU32, try_bytes_needed, Error};
///
/// assert_eq!(try_bytes_needed::<U64ToU32>(3, 95), Ok(256));
/// assert_eq!(try_bytes_needed::<U64ToU32>(usize::MAX, 95), Err(Error::Capacity));
/// ```
///
/// # Errors
///
/// [`Error::Capacity`] if no slot count is large enough for the items, or the length exceeds
/// `usize::MAX`.
///
/// # Panics
///
/// Panics if the percentage is not from 1 to 100.
#[track_caller]
pub fn try_bytes_needed<C: Config>(
    max_item_count: usize,
    max_load_factor_percent: u8,
) -> Result<usize, Error> {
    let percent = percent_of::<C>(max_load_factor_percent);
    tables::bytes_needed::<Proved<C>>(max_item_count, percent).ok_or(Error::Capacity)
}

/// Returns the length of the table at the front of `bytes`, as its header states it. It reads only
/// the header, in constant time. If it returns a length `n`, opening accepts the header and the
/// length of `&bytes[..n]`, and of no other prefix of `bytes`.
///
/// ```
/// use odht::{configs::U64ToU32, table_len, HashTableOwned};
///
/// let mut file = HashTableOwned::<U64ToU32>::with_capacity(3, 95).raw_bytes().to_vec();
/// file.extend(b"and more");
/// assert_eq!(table_len::<U64ToU32>(&file), Ok(256));
/// ```
///
/// # Errors
///
/// Returns the first of `TooShort`, `WrongTag`, `WrongVersion`, `WrongSizeOf`,
/// `SlotCountNotPowerOfTwo` and `SlotCountTooSmall` that applies to the header. If none does, it
/// returns `WrongLength` if there are fewer bytes than the table has: `found` is their number, and
/// `expected` is the length of the table.
pub fn table_len<C: Config>(bytes: &[u8]) -> Result<usize, Error> {
    let () = Proved::<C>::FITS;
    raw::memory_layout::table_len::<Proved<C>>(bytes)
}

/// Checks all of the bytes. It accepts exactly the bytes of tables that the format allows, to the
/// last byte. Lookups in such a table return what a map would.
///
/// It allocates nothing. If hashes vary, its time is linear in the number of bytes. At worst, if
/// all keys of `s` slots have the same hash, it compares keys `s*s/2` times: over an hour for 2^20
/// slots. For untrusted bytes, limit their length, or call [`check_all_within`].
///
/// ```
/// use odht::{check_all, configs::U64ToU32, Error, HashTableOwned};
///
/// let mut table = HashTableOwned::<U64ToU32>::default();
/// table.insert(&1, &2);
/// let mut bytes = table.raw_bytes().to_vec();
/// assert_eq!(check_all::<U64ToU32>(&bytes), Ok(()));
///
/// bytes[8] = 2; // the item count
/// assert!(matches!(check_all::<U64ToU32>(&bytes), Err(Error::WrongItemCount { .. })));
/// ```
///
/// # Errors
///
// begin order: generated from lists/errors.txt by make generate
/// The first of the errors that [`HashTable::try_from_raw_bytes`] returns, then of `LoadFactorTooSmall`,
/// `NonZeroPadding`, `NonZeroEmpty`, `BadFreeControl`, `ControlMismatch`, `MirrorMismatch`, `WrongItemCount`,
/// `TooManyItems` and `Unreachable`.
// end order
///
/// [`HashTable::try_from_raw_bytes`]: crate::HashTable::try_from_raw_bytes
pub fn check_all<C: Config>(bytes: &[u8]) -> Result<(), Error> {
    let () = Proved::<C>::FITS;
    raw::memory_layout::check_all::<Proved<C>>(bytes)
}

/// Like [`check_all`], but in bounded time: use it for untrusted bytes. It also checks that
/// searches are short. Each home, the slot where a search begins, must have a control byte that
/// counts as free among the first `groups` groups of sixteen of its probe order. If it returns no
/// error, no search reads more groups, whether the key is present or absent.
///
/// For `s` slots it reads at most `2 * s * groups` groups and compares at most `16 * s * groups`
/// keys, for any bytes.
///
/// ```
/// use odht::{check_all_within, configs::U64ToU32, HashTableOwned, DEFAULT_GROUPS};
///
/// let mut table = HashTableOwned::<U64ToU32>::default();
/// table.insert(&1, &2);
/// assert_eq!(check_all_within::<U64ToU32>(table.raw_bytes(), DEFAULT_GROUPS), Ok(()));
/// ```
///
/// # Errors
///
/// Those of [`check_all`] in the same order, with [`Error::SearchTooLong`] before `Unreachable`.
pub fn check_all_within<C: Config>(bytes: &[u8], groups: usize) -> Result<(), Error> {
    let () = Proved::<C>::FITS;
    raw::memory_layout::check_all_within::<Proved<C>>(bytes, groups)
}

/// Ensures what the proved library requires of a load factor.
#[track_caller]
pub fn percent_of<C: Config>(max_load_factor_percent: u8) -> u8 {
    let () = Proved::<C>::FITS;
    percent(max_load_factor_percent)
}

/// The same without a configuration.
#[track_caller]
pub fn percent(max_load_factor_percent: u8) -> u8 {
    assert!(
        (1..=100).contains(&max_load_factor_percent),
        "a load factor is from 1 to 100 percent, and not {max_load_factor_percent}"
    );
    max_load_factor_percent
}

/// Ends a call that returns no error. If an allocation of `len` bytes failed, it does what Rust's
/// collections do.
#[cold]
#[track_caller]
pub fn refused(error: Error, len: usize) -> ! {
    if error == Error::Memory && len > 0 {
        if let Ok(layout) = Layout::array::<u8>(len) {
            handle_alloc_error(layout);
        }
    }
    panic!("{error}")
}
