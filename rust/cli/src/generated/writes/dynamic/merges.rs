// Generated from crates/odht_tool_writes/src/dynamic/merges.rt by make generate.
//! `odht merge` of dynamic tables.

use crate::generated::core::any::AnyShape;
use crate::generated::core::arguments::Duplicates;
use crate::generated::core::failure::Failure;
use crate::generated::core::shapes::Hash;
use crate::generated::core::typed::Texts;
use crate::generated::tables::dynamic::{DynTableOwned, Layout};
use crate::generated::tables::hash::HashFn;
use crate::generated::tables::load::Percent;
use crate::generated::tables::raw_table::DynIter;
use crate::generated::tables::{FxHashFn, UnHashFn, Xxh64HashFn};
use crate::generated::tool_tables::dynamic::open_valid;
use crate::generated::writes::reports::PairRun;
use crate::generated::writes::starts::make_lengths;
use crate::host::prelude::*;
use crate::host::rt::Clock;
use crate::shim::Global;
use std::io::Write;

/// How long the text of a key is at most: two digits for each of 255 bytes.
const LONGEST_TEXT: usize = 510;

/// A file whose pairs are merged.
pub struct Input {
    /// The shape of its table.
    pub shape: AnyShape,
    /// All its bytes.
    pub bytes: Vec<u8>,
}

/// Why files are not merged. Their numbers begin with 0.
pub enum MergeFailure {
    /// This file is no table that is merged.
    Failed { at: usize, failure: Failure },
    /// Keys and values of this file have these lengths, and not those of the first file.
    OtherSizes { at: usize, found: (u8, u8), first: (u8, u8) },
    /// This file has the key of this text, and so has one before it.
    Twice { at: usize, text: Vec<u8> },
    /// The new table cannot be made.
    New(Failure),
}

/// What is merged, and how.
pub struct MergeJob<'a> {
    /// The texts of keys and values, which all files have in the same lengths.
    pub texts: Texts,
    /// The files.
    pub inputs: &'a [Input],
    /// Which file's pair of a key counts.
    pub duplicates: Duplicates,
    /// The load factor of the new table.
    pub percent: Percent,
}

/// The bytes of a new table of the pairs of the files.
pub fn merge_lengths<H: HashFn, R: AllocGlobal + Clock, E: Write>(
    run: PairRun<'_, R>,
    job: &MergeJob<'_>,
    errors: &mut E,
) -> Result<Vec<u8>, MergeFailure> {
    match make_table::<H>(run.alloc(), job.texts, job.inputs, job.percent) {
        Ok(table) => merge_into(run, table, job, errors),
        Err(failure) => Err(MergeFailure::New(failure)),
    }
}

// The same where the table is empty at first.
fn merge_into<H: HashFn, R: AllocGlobal + Clock, E: Write>(
    mut run: PairRun<'_, R>,
    mut table: DynTableOwned<H>,
    job: &MergeJob<'_>,
    errors: &mut E,
) -> Result<Vec<u8>, MergeFailure> {
    let (texts, inputs, duplicates) = (job.texts, job.inputs, job.duplicates);
    for at in 0..inputs.len() {
        let input = &inputs[at];
        match repeated_in(run.alloc(), texts, &table, input, duplicates) {
            Ok(None) => {}
            Ok(Some(text)) => return Err(MergeFailure::Twice { at, text }),
            Err(failure) => return Err(MergeFailure::New(failure)),
        }
        match insert_input(&mut run, &mut table, texts, input, duplicates, errors) {
            Ok(()) => {}
            Err(failure) => return Err(MergeFailure::New(failure)),
        }
    }
    run.end(errors);
    Ok(table.into_raw_bytes())
}

// An empty table for the pairs of all files.
fn make_table<H: HashFn>(
    alloc: Global,
    texts: Texts,
    inputs: &[Input],
    percent: Percent,
) -> Result<DynTableOwned<H>, Failure> {
    let layout = Layout { key_len: texts.key.size(), value_len: texts.value.size() };
    match pair_count(texts, inputs) {
        Some(count) => make_lengths::<H>(alloc, layout, count, percent),
        // So many are not in memory.
        None => Err(Failure::Memory),
    }
}

// How many pairs the files have, where that is below 2^64.
fn pair_count(texts: Texts, inputs: &[Input]) -> Option<usize> {
    let mut count: usize = 0;
    for input in inputs {
        count = count.checked_add(input_count(texts, input))?;
    }
    Some(count)
}

// How many pairs a file has.
fn input_count(texts: Texts, input: &Input) -> usize {
    let bytes = input.bytes.as_slice();
    match input.shape.hash() {
        Hash::Fx => stated_len::<FxHashFn>(texts, bytes),
        Hash::Unhash => stated_len::<UnHashFn>(texts, bytes),
        Hash::Xxh64 => stated_len::<Xxh64HashFn>(texts, bytes),
    }
}

// The same of valid bytes.
fn stated_len<S: HashFn>(texts: Texts, bytes: &[u8]) -> usize {
    let table = open_valid::<S>(texts, bytes);
    // To look at the lengths is what tells that they are short, and keys long enough for the hash
    // function.
    let _ = table.layout();
    table.len()
}

// The text of the first key of a file that is in the table, where that is a failure.
fn repeated_in<H: HashFn>(
    alloc: Global,
    texts: Texts,
    table: &DynTableOwned<H>,
    input: &Input,
    duplicates: Duplicates,
) -> Result<Option<Vec<u8>>, Failure> {
    match (duplicates, input.shape.hash()) {
        (Duplicates::Error, Hash::Fx) => {
            let old = open_valid::<FxHashFn>(texts, input.bytes.as_slice());
            repeated_key(alloc, texts, table, old.iter())
        }
        (Duplicates::Error, Hash::Unhash) => {
            let old = open_valid::<UnHashFn>(texts, input.bytes.as_slice());
            repeated_key(alloc, texts, table, old.iter())
        }
        (Duplicates::Error, Hash::Xxh64) => {
            let old = open_valid::<Xxh64HashFn>(texts, input.bytes.as_slice());
            repeated_key(alloc, texts, table, old.iter())
        }
        _ => Ok(None),
    }
}

// The text of the first key of the pairs that is in the table.
fn repeated_key<S: HashFn, H: HashFn>(
    alloc: Global,
    texts: Texts,
    table: &DynTableOwned<H>,
    pairs: DynIter<'_, S>,
) -> Result<Option<Vec<u8>>, Failure> {
    for (key, _) in pairs {
        if table.contains_key(key) {
            let text = text_of_key(alloc, texts, key)?;
            return Ok(Some(text));
        }
    }
    Ok(None)
}

// The text of a key. The memory is asked for before, as a vector that is written to asks for it
// without a failure.
fn text_of_key(alloc: Global, texts: Texts, key: &[u8]) -> Result<Vec<u8>, Failure> {
    let mut text = crate::shim::with_capacity(alloc, LONGEST_TEXT)?;
    match texts.write_key(key, &mut text) {
        Ok(()) => Ok(text),
        Err(_) => Err(Failure::Memory),
    }
}

// Inserts the pairs of a file that count.
fn insert_input<H: HashFn, R: AllocGlobal + Clock, E: Write>(
    run: &mut PairRun<'_, R>,
    table: &mut DynTableOwned<H>,
    texts: Texts,
    input: &Input,
    duplicates: Duplicates,
    errors: &mut E,
) -> Result<(), Failure> {
    match input.shape.hash() {
        Hash::Fx => {
            let old = open_valid::<FxHashFn>(texts, input.bytes.as_slice());
            insert_kept(run, table, old.iter(), duplicates, errors)
        }
        Hash::Unhash => {
            let old = open_valid::<UnHashFn>(texts, input.bytes.as_slice());
            insert_kept(run, table, old.iter(), duplicates, errors)
        }
        Hash::Xxh64 => {
            let old = open_valid::<Xxh64HashFn>(texts, input.bytes.as_slice());
            insert_kept(run, table, old.iter(), duplicates, errors)
        }
    }
}

// Inserts the pairs in turn that count.
fn insert_kept<S: HashFn, H: HashFn, R: AllocGlobal + Clock, E: Write>(
    run: &mut PairRun<'_, R>,
    table: &mut DynTableOwned<H>,
    pairs: DynIter<'_, S>,
    duplicates: Duplicates,
    errors: &mut E,
) -> Result<(), Failure> {
    for (key, value) in pairs {
        insert_one(table, key, value, duplicates)?;
        run.count(errors);
    }
    Ok(())
}

// Inserts a pair, if it counts.
fn insert_one<H: HashFn>(
    table: &mut DynTableOwned<H>,
    key: &[u8],
    value: &[u8],
    duplicates: Duplicates,
) -> Result<(), Failure> {
    if is_left_out(table, key, duplicates) {
        return Ok(());
    }
    match table.insert(key, value) {
        Ok(_) => Ok(()),
        Err(_) => Err(Failure::Memory),
    }
}

// Whether a pair of this key does not count, as the table has the key.
fn is_left_out<H: HashFn>(table: &DynTableOwned<H>, key: &[u8], duplicates: Duplicates) -> bool {
    match duplicates {
        Duplicates::First => table.contains_key(key),
        _ => false,
    }
}
