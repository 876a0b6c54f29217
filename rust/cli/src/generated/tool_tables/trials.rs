// Generated from crates/odht_tool_tables/src/trials.rt by make generate.
//! What makes the searches of a table short: rebuilds of it that are tried in memory.

use crate::generated::core::advice::Advice;
use crate::generated::core::failure::Failure;
use crate::generated::core::found::found_any;
use crate::generated::core::percents::kept_percent;
use crate::generated::core::shapes::Hash;
use crate::generated::core::stored::StoredTable;
use crate::generated::tables::bytes::Borrowed;
use crate::generated::tables::dynamic::{DynTable, DynTableOwned, Layout};
use crate::generated::tables::error::Error;
use crate::generated::tables::hash::HashFn;
use crate::generated::tables::load::Percent;
use crate::generated::tables::memory_layout::DEFAULT_GROUPS;
use crate::generated::tables::raw_table::DynIter;
use crate::generated::tables::{FxHashFn, UnHashFn, Xxh64HashFn};
use crate::generated::tool_tables::checks::check_any;
use crate::generated::tool_tables::short_inserts::{has_long_search, insert_short};
use crate::host::prelude::*;
use crate::shim::Global;

/// The percentage of `Advice::LowerLoad`.
const LOWER: u8 = 50;

/// What makes the searches of the table of these bytes short: the first rebuild that has no long
/// search, of one at a lower load, where the load is high, and of one by `xxh64`, where the table
/// has another hash function. None where the table has no long search either, where `odht rebuild`
/// rejects it, or where neither rebuild helps. `Memory` where memory is short for a rebuild.
///
/// A rebuild ends at the first key whose search would be long, so that it takes time in proportion
/// to the bytes.
pub fn advice_of(alloc: Global, bytes: &[u8]) -> Result<Option<Advice>, Failure> {
    if !has_long(bytes) {
        return Ok(None);
    }
    match taken_hash(bytes) {
        Some(hash) => first_help(alloc, bytes, hash),
        None => Ok(None),
    }
}

// Whether header and length fit, and a search for an absent key is long.
fn has_long(bytes: &[u8]) -> bool {
    match StoredTable::open(bytes) {
        Ok(table) => table.has_long_search(),
        Err(_) => false,
    }
}

// The hash function of a file that `odht rebuild` takes, with `--whole` where a search is too long.
fn taken_hash(bytes: &[u8]) -> Option<Hash> {
    let shape = found_any(bytes, None).ok()?;
    if is_taken(check_any(shape, bytes, Some(DEFAULT_GROUPS))) {
        Some(shape.hash())
    } else {
        None
    }
}

// Whether no rule is broken, or the bound of searches alone.
fn is_taken(checked: Result<(), Error>) -> bool {
    match checked {
        Ok(()) | Err(Error::SearchTooLong { .. }) => true,
        Err(_) => false,
    }
}

// The first help of a table of this hash function.
fn first_help(alloc: Global, bytes: &[u8], hash: Hash) -> Result<Option<Advice>, Failure> {
    let lower_load = lower_load_helps(alloc, bytes, hash)?;
    if lower_load {
        return Ok(Some(Advice::LowerLoad));
    }
    let mixing = mixing_helps(alloc, bytes, hash)?;
    if mixing {
        return Ok(Some(Advice::Mixing));
    }
    Ok(None)
}

// Whether the load is high, and a rebuild at a lower one helps.
fn lower_load_helps(alloc: Global, bytes: &[u8], hash: Hash) -> Result<bool, Failure> {
    if has_high_load(bytes) {
        helps(alloc, bytes, hash, Percent::new(LOWER).unwrap())
    } else {
        Ok(false)
    }
}

// Whether the hash function is another than `xxh64`, and a rebuild by that one helps, at the load
// factor of the table.
fn mixing_helps(alloc: Global, bytes: &[u8], hash: Hash) -> Result<bool, Failure> {
    if hash.is(Hash::Xxh64) {
        Ok(false)
    } else {
        helps(alloc, bytes, Hash::Xxh64, kept_percent(bytes))
    }
}

// Whether more than half of the slots are occupied, in percent rounded down.
fn has_high_load(bytes: &[u8]) -> bool {
    match StoredTable::open(bytes) {
        Ok(table) => table.has_high_load(),
        Err(_) => false,
    }
}

// Whether a rebuild by this hash function, at this load factor, has no long search. Its keys have
// to be long enough for the function.
fn helps(alloc: Global, bytes: &[u8], hash: Hash, percent: Percent) -> Result<bool, Failure> {
    match hash {
        Hash::Fx => is_short::<FxHashFn>(alloc, bytes, percent),
        Hash::Unhash => is_short::<UnHashFn>(alloc, bytes, percent),
        Hash::Xxh64 => is_short::<Xxh64HashFn>(alloc, bytes, percent),
    }
}

// The same by the hash function `H`.
fn is_short<H: HashFn>(alloc: Global, bytes: &[u8], percent: Percent) -> Result<bool, Failure> {
    let Ok(table) = StoredTable::open(bytes) else {
        return Ok(false);
    };
    let layout = table.layout();
    if (layout.key_len as usize) < H::MIN_LEN {
        return Ok(false);
    }
    is_rebuilt_short::<H>(alloc, layout, bytes, percent)
}

// The same of the lengths of keys and values, of which the former are long enough.
fn is_rebuilt_short<H: HashFn>(
    alloc: Global,
    layout: Layout,
    bytes: &[u8],
    percent: Percent,
) -> Result<bool, Failure> {
    // `FxHashFn` stands for any hash function, since a walk hashes nothing.
    let old: DynTable<FxHashFn, Borrowed<'_>> =
        DynTable::open_unchecked(layout, Borrowed::new(bytes));
    let (count, percent) = (count_of(old.iter()), percent.value());
    let Ok(mut new) = DynTableOwned::<H>::with_capacity(alloc, layout, count, percent) else {
        return Err(Failure::Memory);
    };
    let whole = insert_short(&mut new, old.iter())?;
    if whole {
        Ok(!has_long_search(new.raw_bytes()))
    } else {
        Ok(false)
    }
}

// How many pairs a walk gives.
fn count_of<H: HashFn>(pairs: DynIter<'_, H>) -> usize {
    let mut count = 0_usize;
    for _pair in pairs {
        count += 1;
    }
    count
}
