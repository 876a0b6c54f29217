// Generated from crates/odht_raw/src/memory_layout/allocation.rt by make generate.
//! The bytes of a table in a store: opening and reading.

use super::opening::cut;
use super::{check_by_header, check_opening_in, Entries, EntryMetadata, Header};
use crate::generated::raw::bytes::{ByteArray, ByteStore};
use crate::generated::raw::config::Config;
use crate::generated::raw::error::Error;
use crate::generated::raw::layout::{Fixed, Layout};
use crate::generated::raw::raw_table::RawTable;
use std::marker::PhantomData;

mod writing;

pub(super) use writing::write_count;

/// A store of the bytes of a table, whose header and length fit. In a contract it is the store.
pub struct Allocation<C: Config, M: ByteStore> {
    store: M,
    config: PhantomData<C>,
}

impl<C: Config, M: ByteStore> Allocation<C, M> {
    /// Opens the bytes as those of a table. The result is the first error, if any: `TooShort`,
    /// then those of [`Header::sanity_check`], then those of [`RawTable::sanity_check_hashes`] on
    /// the first ten slots. On an error the data is dropped. Valid bytes are always opened; bytes
    /// that are opened need not be valid.
    #[inline(always)]
    pub fn from_raw_bytes(data: M) -> Result<Self, Error> {
        let lengths: Fixed<C::EncodedKey, C::EncodedValue> = Fixed::new();
        check_opening_in::<Fixed<C::EncodedKey, C::EncodedValue>, C::H>(data.bytes(), lengths)?;
        Ok(Allocation { store: data, config: PhantomData })
    }

    /// Opens the bytes as those of a table only by their header and length. The result is the
    /// first error, if any: `TooShort`, then those of [`Header::sanity_check`]. No slot is read.
    /// On an error the data is dropped.
    #[inline(always)]
    pub fn from_raw_bytes_by_header(data: M) -> Result<Self, Error> {
        check_by_header(data.bytes(), Layout::of::<C>())?;
        Ok(Allocation { store: data, config: PhantomData })
    }

    /// Opens bytes that the caller knows to have a header and a length that fit. Nothing is
    /// checked.
    #[inline]
    pub fn from_raw_bytes_unchecked(data: M) -> Self {
        // For the prover: the length of a slice, and so of the store's bytes, is below 2^64.
        let _ = data.bytes();
        Allocation { store: data, config: PhantomData }
    }

    /// All bytes of the table.
    #[inline]
    pub fn raw_bytes(&self) -> &[u8] {
        self.store.bytes()
    }

    /// The store, with the bytes as they are now.
    #[inline]
    pub fn into_data(self) -> M {
        let Allocation { store, config: _ } = self;
        store
    }

    /// A reader of the header.
    #[inline]
    pub fn header(&self) -> Header<'_> {
        Header::of(self.store.bytes())
    }

    /// The control bytes with their mirror, and the entries. Of the bytes of a valid table they
    /// are its parts.
    #[inline]
    pub fn data_slices(&self) -> (&[EntryMetadata], Entries<'_, C::EncodedKey, C::EncodedValue>) {
        let lengths: Fixed<C::EncodedKey, C::EncodedValue> = Fixed::new();
        let bytes = self.store.bytes();
        // As in `parts_in`, but an owned store needs no check of its slot count (`tools/erase`).
        let slots = Header::of(bytes).slot_count();
        crate::shim::slots::check::<M>(
            bytes.len(),
            slots,
            crate::generated::header::layout::Layout::of::<C>(),
        );
        let parts = cut::<Fixed<C::EncodedKey, C::EncodedValue>, C::H>(bytes, slots, lengths);
        (parts.controls(), Entries::of(parts.stored()))
    }

    /// The parts of the table, to be read.
    #[inline(always)]
    pub fn as_raw(&self) -> RawTable<'_, C::EncodedKey, C::EncodedValue, C::H> {
        let (control, entries) = self.data_slices();
        RawTable::new(control, entries)
    }
}

// Does nothing: its contract gives the proof that each item of a slice of bytes is below 256.
#[inline(always)]
pub(crate) fn prove_bytes(bytes: &[u8]) {}
