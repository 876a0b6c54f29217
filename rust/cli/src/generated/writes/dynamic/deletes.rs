// Generated from crates/odht_tool_writes/src/dynamic/deletes.rt by make generate.
//! `odht delete` of dynamic tables.

use crate::generated::core::failure::Failure;
use crate::generated::core::key_lists::{ByteKeys, Keys};
use crate::generated::core::keys::{write_absent, Word};
use crate::generated::core::status::Status;
use crate::generated::tables::bytes::Borrowed;
use crate::generated::tables::dynamic::{DynTable, DynTableOwned, Layout};
use crate::generated::tables::hash::HashFn;
use crate::generated::tables::load::Percent;
use crate::generated::tables::memory_layout::{init_parts, Header};
use crate::generated::tables::raw_table::DynIter;
use crate::generated::writes::reports::PairRun;
use crate::generated::writes::starts::make_lengths;
use crate::host::prelude::*;
use crate::host::rt::Clock;
use crate::shim::Global;
use std::io::{self, Write};

/// Keys, each with the word or the line that is its text.
pub struct NamedKeys<'a, W> {
    pub words: &'a [W],
    pub keys: &'a ByteKeys,
}

/// The bytes of the table without these keys, and whether each had a value; a line on `errors`
/// tells of each that had none.
pub fn delete_lengths<H: HashFn, W: Word, R: AllocGlobal + Clock, E: Write>(
    run: PairRun<'_, R>,
    file: &str,
    layout: Layout,
    bytes: &[u8],
    named: &NamedKeys<'_, W>,
    errors: &mut E,
) -> Result<(Vec<u8>, Status), Failure> {
    let old: DynTable<H, Borrowed<'_>> = DynTable::open_unchecked(layout, Borrowed::new(bytes));
    let left = left_pairs(run, &old, named.keys, errors)?;
    let are_there = are_there(&old, named.keys);
    if !are_there {
        // A line that cannot be written is no failure.
        let _ = write_absent_keys(file, &old, named.words, named.keys, errors);
    }
    Ok((left, Status::of(are_there)))
}

// The bytes of the table without these keys.
fn left_pairs<H: HashFn, R: AllocGlobal + Clock, E: Write>(
    run: PairRun<'_, R>,
    old: &DynTable<H, Borrowed<'_>>,
    keys: &ByteKeys,
    errors: &mut E,
) -> Result<Vec<u8>, Failure> {
    let named = named_keys::<H>(run.alloc(), old.layout().key_len, keys)?;
    let mut table = cleared(run.alloc(), old)?;
    insert_others(run, &mut table, &named, old.iter(), errors)?;
    Ok(table.into_raw_bytes())
}

// A table of these keys, with values of no bytes.
fn named_keys<H: HashFn>(
    alloc: Global,
    key_len: u8,
    keys: &ByteKeys,
) -> Result<DynTableOwned<H>, Failure> {
    let mut named = no_keys::<H>(alloc, key_len)?;
    for at in 0..keys.count() {
        if named.insert(keys.at(at), b"").is_err() {
            return Err(Failure::Memory);
        }
    }
    Ok(named)
}

fn no_keys<H: HashFn>(alloc: Global, key_len: u8) -> Result<DynTableOwned<H>, Failure> {
    let layout = Layout { key_len, value_len: 0 };
    make_lengths::<H>(alloc, layout, 12, Percent::new(87).unwrap())
}

// An empty table of the slot count and the load factor of this one.
fn cleared<H: HashFn>(
    alloc: Global,
    old: &DynTable<H, Borrowed<'_>>,
) -> Result<DynTableOwned<H>, Failure> {
    let (layout, bytes) = (old.layout(), old.raw_bytes());
    let header = Header::of(bytes);
    let len = bytes.len();
    let Ok(mut empty) = crate::host::lists::filled(alloc, 0, len) else {
        return Err(Failure::Memory);
    };
    init_parts(empty.as_mut_slice(), layout, header.slot_count(), 0, header.max_load_factor());
    DynTableOwned::from_raw_bytes(alloc, layout, empty.as_slice()).map_err(|_| Failure::Memory)
}

// Inserts the pairs in turn whose keys are not named.
fn insert_others<H: HashFn, R: AllocGlobal + Clock, E: Write>(
    mut run: PairRun<'_, R>,
    table: &mut DynTableOwned<H>,
    named: &DynTableOwned<H>,
    pairs: DynIter<'_, H>,
    errors: &mut E,
) -> Result<(), Failure> {
    for (key, value) in pairs {
        insert_other(table, named, key, value)?;
        run.count(errors);
    }
    run.end(errors);
    Ok(())
}

// Inserts a pair whose key is not named.
fn insert_other<H: HashFn>(
    table: &mut DynTableOwned<H>,
    named: &DynTableOwned<H>,
    key: &[u8],
    value: &[u8],
) -> Result<(), Failure> {
    if named.contains_key(key) {
        return Ok(());
    }
    match table.insert(key, value) {
        Ok(_) => Ok(()),
        Err(_) => Err(Failure::Memory),
    }
}

// Whether each key has a value.
fn are_there<H: HashFn>(table: &DynTable<H, Borrowed<'_>>, keys: &ByteKeys) -> bool {
    for at in 0..keys.count() {
        if !table.contains_key(keys.at(at)) {
            return false;
        }
    }
    true
}

// Writes a line for each word or line whose key has no value.
fn write_absent_keys<H: HashFn, W: Word, E: Write>(
    file: &str,
    table: &DynTable<H, Borrowed<'_>>,
    words: &[W],
    keys: &ByteKeys,
    errors: &mut E,
) -> io::Result<()> {
    for at in 0..words.len() {
        if !table.contains_key(keys.at(at)) {
            write_absent(file, words[at].bytes(), errors)?;
        }
    }
    Ok(())
}
