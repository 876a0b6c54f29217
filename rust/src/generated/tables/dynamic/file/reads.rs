// Generated from crates/odht/src/dynamic/file/reads.rt by make generate.
//! What is read of a table by position: its header, its first slots, and the value of a key.

use super::FileError;
use crate::generated::tables::dynamic::DynError;
use crate::generated::tables::error::Error;
use crate::generated::tables::hash::HashFn;
use crate::generated::tables::layout::Layout;
use crate::generated::tables::memory_layout::{Header, HEADER_SIZE};
use crate::generated::tables::raw_table::{
    search_read, DynRawTable, ReadPlace, Search, ShortBytes,
};
use crate::generated::tables::read_at::{read_exact_at, ReadAt, ReadError};

// How many slots are read to check the first ten: a group.
const FIRST_SLOTS: usize = 16;

const SLOTS_TO_CHECK: usize = 10;

// The most bytes that the entries of these slots have.
const MOST_ENTRIES: usize = 8160;

/// Where the parts of a table are that begins at this offset.
pub(super) fn place_of(at: u64, slots: usize, layout: Layout) -> ReadPlace {
    let entries_at = at + HEADER_SIZE as u64;
    ReadPlace {
        entries_at,
        control_at: entries_at + (slots * layout.entry_len()) as u64,
        slots,
        layout,
    }
}

/// Reads what a table is opened by, and returns the counts of slots and items that its header
/// states, or the first error.
pub(super) fn open_header<H: HashFn, S: ReadAt>(
    source: &S,
    layout: Layout,
    at: u64,
    len: usize,
) -> Result<(usize, usize), FileError> {
    let (slots, items) = header_counts::<S>(source, layout, at, len)?;
    let place = place_of(at, slots, layout);
    check_first::<H, S>(source, &place)?;
    Ok((slots, items))
}

// Reads and checks the header of a table of `len` bytes.
fn header_counts<S: ReadAt>(
    source: &S,
    layout: Layout,
    at: u64,
    len: usize,
) -> Result<(usize, usize), FileError> {
    if len < HEADER_SIZE {
        return Err(FileError::Table(DynError::Rejected(Error::TooShort { found: len })));
    }
    let mut bytes = [0; HEADER_SIZE];
    match read_exact_at(source, at, &mut bytes) {
        Ok(()) => {}
        Err(error) => return Err(FileError::Read(error)),
    }
    let header = Header::of(&bytes);
    match header.check_layout(layout, len) {
        Ok(()) => Ok((header.slot_count(), header.item_count())),
        Err(rejected) => Err(FileError::Table(DynError::Rejected(rejected))),
    }
}

/// The lengths that the header of a table of `len` bytes states. The header is read and checked.
pub(super) fn stated_lengths<S: ReadAt>(
    source: &S,
    at: u64,
    len: usize,
) -> Result<Layout, FileError> {
    if len < HEADER_SIZE {
        return Err(FileError::Table(DynError::Rejected(Error::TooShort { found: len })));
    }
    let mut front = [0; HEADER_SIZE];
    match read_exact_at(source, at, &mut front) {
        Ok(()) => {}
        Err(error) => return Err(FileError::Read(error)),
    }
    let header = Header::of(&front);
    let layout = header.layout();
    match header.check_layout(layout, len) {
        Ok(()) => Ok(layout),
        Err(rejected) => Err(FileError::Table(DynError::Rejected(rejected))),
    }
}

// Reads the first sixteen slots, and checks the first ten as opening does.
fn check_first<H: HashFn, S: ReadAt>(source: &S, place: &ReadPlace) -> Result<(), FileError> {
    let mut control = [0; 32];
    match read_exact_at(source, place.control_at, &mut control) {
        Ok(()) => {}
        Err(error) => return Err(FileError::Read(error)),
    }
    let mut bytes = [0; MOST_ENTRIES];
    let (entries, _) = bytes.split_at_mut(FIRST_SLOTS * place.layout.entry_len());
    match read_exact_at(source, place.entries_at, entries) {
        Ok(()) => {}
        Err(error) => return Err(FileError::Read(error)),
    }
    let first = DynRawTable::<H>::new(&control, &*entries, FIRST_SLOTS, place.layout);
    match first.sanity_check_hashes(SLOTS_TO_CHECK) {
        Ok(()) => Ok(()),
        Err(rejected) => Err(FileError::Table(DynError::Rejected(rejected))),
    }
}

/// The value of a key, and how many groups of control bytes were read.
pub(super) fn find_read<H: HashFn, S: ReadAt>(
    source: &S,
    place: &ReadPlace,
    key: &[u8],
) -> Result<(Option<ShortBytes>, usize), ReadError> {
    match search_read::<S, H>(source, place, key) {
        Ok((Search::Found(slot), groups)) => match read_value(source, place, slot) {
            Ok(value) => Ok((Some(value), groups)),
            Err(error) => Err(error),
        },
        Ok((Search::Free(_), groups)) => Ok((None, groups)),
        Ok((Search::Neither, groups)) => Ok((None, groups)),
        Err(error) => Err(error),
    }
}

// The value of a slot.
fn read_value<S: ReadAt>(
    source: &S,
    place: &ReadPlace,
    slot: usize,
) -> Result<ShortBytes, ReadError> {
    let layout = place.layout;
    let entry_at = place.entries_at + slot as u64 * layout.entry_len() as u64;
    let mut bytes = [0; 255];
    let (value, _) = bytes.split_at_mut(layout.value_len as usize);
    read_exact_at(source, entry_at + layout.key_len as u64, value)?;
    Ok(ShortBytes::of(&*value))
}
