// Generated from crates/odht_tool_writes/src/commands/rebuild.rt by make generate.
//! `odht rebuild`: a table file from scratch, of another load factor or hash function.

use crate::generated::core::any::{named_any, AnyShape};
use crate::generated::core::arguments::RebuildOptions;
use crate::generated::core::failure::Failure;
use crate::generated::core::files::read_file;
use crate::generated::core::found::found_any;
use crate::generated::core::new_file::{ended, make_new, replace_file, NewFile};
use crate::generated::core::percents::new_percent;
use crate::generated::core::shapes::Hash;
use crate::generated::core::status::Status;
use crate::generated::core::targets::Target;
use crate::generated::tables::bytes::Borrowed;
use crate::generated::tables::dynamic::{DynTable, DynTableOwned, Layout};
use crate::generated::tables::hash::HashFn;
use crate::generated::tables::load::Percent;
use crate::generated::tables::raw_table::DynIter;
use crate::generated::tables::{FxHashFn, UnHashFn, Xxh64HashFn};
use crate::generated::tool_tables::checks::check_any;
use crate::generated::writes::reports::PairRun;
use crate::generated::writes::starts::make_lengths;
use crate::host::prelude::*;
use crate::host::rt::{Clock, Files};
use std::io::Write;
use std::os::fd::AsFd;

/// Makes a new table of the pairs of the table in the file, and stores it in the place of the
/// older one, which stays where something fails.
pub fn rebuild<R: Files + AllocGlobal + Clock, E: Write>(
    rt: &R,
    file: &str,
    options: RebuildOptions,
    errors: &mut E,
) -> Result<Status, Failure>
where
    R::File: AsFd,
{
    let target = Target::find_table(rt, file, options.breaks_links)?;
    let mut new = make_new(rt, target)?;
    let done = rebuild_as(rt, &mut new, options, errors);
    ended(rt, new, done)
}

// The same with the new file that replaces the older one.
fn rebuild_as<R: Files + AllocGlobal + Clock, E: Write>(
    rt: &R,
    new: &mut NewFile<R::File>,
    options: RebuildOptions,
    errors: &mut E,
) -> Result<Status, Failure>
where
    R::File: AsFd,
{
    let bytes = read_file(rt, new.path())?;
    let bytes = rebuilt(rt, bytes, options, errors)?;
    replace_file(rt, new, bytes.as_slice())?;
    Ok(Status::Done)
}

// The bytes of the new table. Those of the old one are checked whole before, with the bound of
// searches where there is one, and freed once the new one has its pairs.
fn rebuilt<R: AllocGlobal + Clock, E: Write>(
    rt: &R,
    bytes: Vec<u8>,
    options: RebuildOptions,
    errors: &mut E,
) -> Result<Vec<u8>, Failure> {
    let bytes = bytes.as_slice();
    let shape = found_any(bytes, None)?;
    let hash = new_hash(bytes, shape, options.hash)?;
    match check_any(shape, bytes, options.bound) {
        Ok(()) => {
            let percent = new_percent(bytes, options.percent);
            let run = PairRun::new(rt, options.has_progress);
            rebuilt_for(run, shape, hash, bytes, percent, errors)
        }
        Err(error) => Err(Failure::Refused(error)),
    }
}

// The same of valid bytes of a shape, and of the hash function of the new table.
fn rebuilt_for<R: AllocGlobal + Clock, E: Write>(
    run: PairRun<'_, R>,
    shape: AnyShape,
    hash: Hash,
    bytes: &[u8],
    percent: Percent,
    errors: &mut E,
) -> Result<Vec<u8>, Failure> {
    let layout = Layout { key_len: shape.key().size(), value_len: shape.value().size() };
    match shape.hash() {
        Hash::Fx => rebuilt_from::<FxHashFn, R, E>(run, layout, hash, bytes, percent, errors),
        Hash::Unhash => rebuilt_from::<UnHashFn, R, E>(run, layout, hash, bytes, percent, errors),
        Hash::Xxh64 => rebuilt_from::<Xxh64HashFn, R, E>(run, layout, hash, bytes, percent, errors),
    }
}

// The same of lengths and of the hash function of the old table.
fn rebuilt_from<S: HashFn, R: AllocGlobal + Clock, E: Write>(
    run: PairRun<'_, R>,
    layout: Layout,
    hash: Hash,
    bytes: &[u8],
    percent: Percent,
    errors: &mut E,
) -> Result<Vec<u8>, Failure> {
    match hash {
        Hash::Fx => rebuilt_as::<S, FxHashFn, R, E>(run, layout, bytes, percent, errors),
        Hash::Unhash => rebuilt_as::<S, UnHashFn, R, E>(run, layout, bytes, percent, errors),
        Hash::Xxh64 => rebuilt_as::<S, Xxh64HashFn, R, E>(run, layout, bytes, percent, errors),
    }
}

// The hash function of the new table. The one that is named needs keys that are long enough.
fn new_hash(bytes: &[u8], shape: AnyShape, hash: Option<Hash>) -> Result<Hash, Failure> {
    match hash {
        None => Ok(shape.hash()),
        Some(named) => Ok(named_any(bytes, Some(named))?.hash()),
    }
}

// The same of lengths and of the hash functions of the old table and of the new one.
fn rebuilt_as<S: HashFn, H: HashFn, R: AllocGlobal + Clock, E: Write>(
    run: PairRun<'_, R>,
    layout: Layout,
    bytes: &[u8],
    percent: Percent,
    errors: &mut E,
) -> Result<Vec<u8>, Failure> {
    let old: DynTable<S, Borrowed<'_>> = DynTable::open_unchecked(layout, Borrowed::new(bytes));
    let mut table = make_lengths::<H>(run.alloc(), layout, old.len(), percent)?;
    insert_pairs(run, &mut table, old.iter(), errors)?;
    Ok(table.into_raw_bytes())
}

// Inserts the pairs in turn.
fn insert_pairs<S: HashFn, H: HashFn, R: AllocGlobal + Clock, E: Write>(
    mut run: PairRun<'_, R>,
    table: &mut DynTableOwned<H>,
    pairs: DynIter<'_, S>,
    errors: &mut E,
) -> Result<(), Failure> {
    for (key, value) in pairs {
        if table.insert(key, value).is_err() {
            return Err(Failure::Memory);
        }
        run.count(errors);
    }
    run.end(errors);
    Ok(())
}
