// Generated from crates/odht_tool_writes/src/commands/delete.rt by make generate.
//! `odht delete`: a table file without some of its keys.

use crate::generated::core::any::AnyShape;
use crate::generated::core::arguments::{DeleteOptions, Keys};
use crate::generated::core::failure::Failure;
use crate::generated::core::files::read_file;
use crate::generated::core::forms::Form;
use crate::generated::core::key_lists::ByteKeys;
use crate::generated::core::keys::{parse_keys, Word};
use crate::generated::core::new_file::{ended, make_new, replace_file, NewFile};
use crate::generated::core::shapes::Hash;
use crate::generated::core::status::Status;
use crate::generated::core::targets::Target;
use crate::generated::tables::{FxHashFn, UnHashFn, Xxh64HashFn};
use crate::generated::tool_tables::dynamic::lengths_of;
use crate::generated::tool_tables::whole::read_asked;
use crate::generated::writes::commands::delete_lines::keys_of_lines;
use crate::generated::writes::dynamic::deletes::{delete_lengths, NamedKeys};
use crate::generated::writes::reports::PairRun;
use crate::host::prelude::*;
use crate::host::rt::{Clock, Files};
use crate::shim::Global;
use std::io::{BufRead, Write};
use std::os::fd::AsFd;

/// Makes a new table of the pairs of the table in the file whose keys are not named, by words or
/// by the lines of `input`, and stores it in the place of the older one, which stays where
/// something fails. Not all is done where a key is absent.
pub fn delete<R: Files + AllocGlobal + Clock, I: BufRead, E: Write>(
    rt: &R,
    file: &str,
    options: &DeleteOptions,
    input: &mut I,
    errors: &mut E,
) -> Result<Status, Failure>
where
    R::File: AsFd,
{
    let target = Target::find_table(rt, file, options.breaks_links)?;
    let mut new = make_new(rt, target)?;
    let done = delete_as(rt, file, &mut new, options, input, errors);
    ended(rt, new, done)
}

// The same with the new file that replaces the older one.
fn delete_as<R: Files + AllocGlobal + Clock, I: BufRead, E: Write>(
    rt: &R,
    file: &str,
    new: &mut NewFile<R::File>,
    options: &DeleteOptions,
    input: &mut I,
    errors: &mut E,
) -> Result<Status, Failure>
where
    R::File: AsFd,
{
    let bytes = read_file(rt, new.path())?;
    let (bytes, status) = deleted(rt, file, bytes, options, input, errors)?;
    replace_file(rt, new, bytes.as_slice())?;
    Ok(status)
}

// The bytes of the new table, without the keys that the options name, by words or by the lines of
// `input`. Those of the old one are checked whole before, with the bound of searches where there is
// one. A line on `errors` tells of each key that is absent.
fn deleted<R: AllocGlobal + Clock, I: BufRead, E: Write>(
    rt: &R,
    file: &str,
    bytes: Vec<u8>,
    options: &DeleteOptions,
    input: &mut I,
    errors: &mut E,
) -> Result<(Vec<u8>, Status), Failure> {
    let bytes = bytes.as_slice();
    let found = read_asked(bytes, options.hash, options.kinds, options.bound)?;
    let (shape, forms) = found;
    match &options.keys {
        Keys::Words(words) => {
            let words = words.as_slice();
            let keys = keys_of_words(rt.alloc(), shape, forms.key, words)?;
            let run = PairRun::new(rt, options.has_progress);
            let named = NamedKeys { words, keys: &keys };
            deleted_for(run, file, shape, bytes, &named, errors)
        }
        Keys::Lines => {
            let read = keys_of_lines(rt.alloc(), shape, forms.key, input)?;
            let run = PairRun::new(rt, options.has_progress);
            let named = NamedKeys { words: read.lines.as_slice(), keys: &read.keys };
            deleted_for(run, file, shape, bytes, &named, errors)
        }
    }
}

// The same of valid bytes of a shape, and of these keys.
fn deleted_for<W: Word, R: AllocGlobal + Clock, E: Write>(
    run: PairRun<'_, R>,
    file: &str,
    shape: AnyShape,
    bytes: &[u8],
    named: &NamedKeys<'_, W>,
    errors: &mut E,
) -> Result<(Vec<u8>, Status), Failure> {
    let layout = lengths_of(shape.key(), shape.value());
    match shape.hash() {
        Hash::Fx => delete_lengths::<FxHashFn, W, R, E>(run, file, layout, bytes, named, errors),
        Hash::Unhash => {
            delete_lengths::<UnHashFn, W, R, E>(run, file, layout, bytes, named, errors)
        }
        Hash::Xxh64 => {
            delete_lengths::<Xxh64HashFn, W, R, E>(run, file, layout, bytes, named, errors)
        }
    }
}

// The bytes of the keys of the words in this form, or the first word that is none.
fn keys_of_words(
    alloc: Global,
    shape: AnyShape,
    form: Form,
    words: &[String],
) -> Result<ByteKeys, Failure> {
    let key = shape.key();
    parse_keys(alloc, words, key.size(), form.of(key))
}
