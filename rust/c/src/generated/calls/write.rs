// Generated from crates/odht_calls/src/write.rt by make generate.
//! The calls that write the bytes of a table. Those that take no key are for lengths that are types
//! or numbers, the others for every configuration.

use crate::generated::calls::read::{header_of, refused};
use crate::generated::calls::status::{
    status_of, BAD_PERCENT, CAPACITY, INIT_LENGTH, LOAD_FACTOR_TOO_SMALL, OK, REPLACED, TOO_SMALL,
};
use crate::generated::tables::bytes::ByteStoreMut;
use crate::generated::tables::config::Config;
use crate::generated::tables::error::Error;
use crate::generated::tables::growth::{grow_parts, grown_len_of};
use crate::generated::tables::hash::HashFn;
use crate::generated::tables::items::{Encoded, EncodedItems, Zipped};
use crate::generated::tables::layout::{Fixed, Layout, Lengths};
use crate::generated::tables::load::{Factor, Percent};
use crate::generated::tables::memory_layout::{
    init_parts, insert_items_in, is_accepted, Header, LEAST_FACTOR,
};
use crate::generated::tables::HashTable;
use std::marker::PhantomData;

/// The lengths of a configuration.
pub(crate) type Sizes<C> = Fixed<<C as Config>::EncodedKey, <C as Config>::EncodedValue>;

/// The keys and values of two slices, at each index.
pub(crate) type Pairs<'a, C> =
    Encoded<'a, C, Zipped<'a, 'a, <C as Config>::Key, <C as Config>::Value>>;

/// Writes to `len` how many bytes a new table for that many items has. BAD_PERCENT and CAPACITY
/// leave `len` unchanged.
pub fn bytes_needed<L: Lengths, H: HashFn>(
    lengths: L,
    max_item_count: usize,
    max_load_factor_percent: u8,
    len: &mut usize,
) -> u32 {
    let Some(percent) = Percent::new(max_load_factor_percent) else {
        return BAD_PERCENT;
    };
    let factor = Factor::from_percent(percent.value());
    match Layout::of_lengths(lengths).table_for(max_item_count, factor) {
        Some((_, needed)) => {
            *len = needed;
            OK
        }
        None => CAPACITY,
    }
}

/// Makes an empty table for that many items in the bytes, whatever they hold. BAD_PERCENT, CAPACITY
/// and INIT_LENGTH leave them unchanged.
pub fn init<L: Lengths, H: HashFn>(
    lengths: L,
    bytes: &mut [u8],
    max_item_count: usize,
    max_load_factor_percent: u8,
) -> u32 {
    let Some(percent) = Percent::new(max_load_factor_percent) else {
        return BAD_PERCENT;
    };
    let factor = Factor::from_percent(percent.value());
    let Some((slot_count, needed)) = Layout::of_lengths(lengths).table_for(max_item_count, factor)
    else {
        return CAPACITY;
    };
    if bytes.len() != needed {
        return INIT_LENGTH;
    }
    init_parts(bytes, lengths, slot_count, 0, factor);
    OK
}

/// Gives the key this value. A value that it had before is written to `former`. An error leaves
/// the store and `former` unchanged.
#[inline(always)]
pub fn insert<C: Config, M: ByteStoreMut>(
    store: &mut M,
    key: &C::Key,
    value: &C::Value,
    former: &mut C::Value,
) -> u32 {
    if !is_accepted::<C>(store.bytes()) {
        return refused::<C>(store.bytes());
    }
    let mut table = HashTable::<C, &mut M>::from_raw_bytes_unchecked(store);
    let answer = table.insert(key, value);
    let _store = table.into_data();
    match answer {
        Ok(Some(old)) => {
            *former = old;
            REPLACED
        }
        Ok(None) => OK,
        Err(refused) => status_of(&refused),
    }
}

/// Inserts the pairs in order, up to the first whose insert fails with FULL, and writes to
/// `accepted` how many were inserted. An error of the header or length leaves everything
/// unchanged.
#[inline(always)]
pub fn insert_all<C: Config>(
    bytes: &mut [u8],
    keys: &[C::Key],
    values: &[C::Value],
    accepted: &mut usize,
) -> u32 {
    if !is_accepted::<C>(bytes) {
        return refused::<C>(bytes);
    }
    let pairs = Zipped::new(keys, values);
    let items: Pairs<'_, C> = Encoded { items: &pairs, config: PhantomData };
    insert_items::<Sizes<C>, C::H, Pairs<'_, C>>(Fixed::new(), bytes, items, accepted)
}

/// Inserts items in their order into bytes whose header and length fit, up to the first for which
/// there is no room (FULL), and writes to `accepted` how many were inserted. Every item fits.
#[inline(always)]
pub(crate) fn insert_items<L: Lengths, H: HashFn, I: EncodedItems>(
    lengths: L,
    bytes: &mut [u8],
    items: I,
    accepted: &mut usize,
) -> u32 {
    let slots = Header::of(bytes).slot_count();
    let count = items.count();
    let inserted = insert_items_in::<L, H, I>(bytes, slots, lengths, items, 0);
    *accepted = inserted;
    if inserted < count {
        return status_of(&Error::Full);
    }
    OK
}

/// Writes the table that the one in `bytes` grows into to the front of `out`, and its length in
/// bytes to `len`. TOO_SMALL leaves `out` unchanged, any other error leaves both unchanged.
#[inline]
pub fn grow<L: Lengths, H: HashFn>(
    lengths: L,
    bytes: &[u8],
    out: &mut [u8],
    len: &mut usize,
) -> u32 {
    let header = match header_of::<L, H>(lengths, bytes) {
        Ok(header) => header,
        Err(refused) => return status_of(&refused),
    };
    if header.max_load_factor().0 < LEAST_FACTOR {
        return LOAD_FACTOR_TOO_SMALL;
    }
    let Some(needed) = grown_len_of::<L, H>(bytes, lengths) else {
        return CAPACITY;
    };
    *len = needed;
    if out.len() < needed {
        return TOO_SMALL;
    }
    grow_parts::<L, H>(bytes, lengths, &mut out[..needed]);
    OK
}
