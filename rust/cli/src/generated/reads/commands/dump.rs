// Generated from crates/odht_tool_reads/src/commands/dump.rt by make generate.
//! `odht dump`: the pairs of a table file.

use crate::generated::core::any::read_any;
use crate::generated::core::dynamic_slots::write_slots;
use crate::generated::core::failure::Failure;
use crate::generated::core::forms::{Form, Kinds};
use crate::generated::core::json::pairs::write_pair_object;
use crate::generated::core::shapes::{Hash, Part};
use crate::generated::core::status::{of_output, Status};
use crate::generated::core::typed::stored::{Digits32, Digits64, TextWriter, Typed};
use crate::generated::core::typed::Texts;
use crate::generated::reads::bounds::check_bound;
use crate::generated::tables::hash::HashFn;
use crate::generated::tables::raw_table::DynIter;
use crate::generated::tables::{FxHashFn, UnHashFn, Xxh64HashFn};
use crate::generated::tool_tables::dynamic::{lengths_of, open_lengths};
use crate::host::prelude::*;
use std::io::{self, Write};

/// `odht dump --slots` of the bytes of a file, with `--json` or without: writes a line for each
/// pair, in slot order. It searches each key. So where a search may read more groups than the bound
/// it fails before it writes.
pub fn dump_slots<O: Write>(
    bytes: &[u8],
    hash: Option<Hash>,
    kinds: Kinds,
    bound: Option<usize>,
    is_json: bool,
    output: &mut O,
) -> Result<Status, Failure> {
    match check_bound(bytes, bound) {
        Ok(()) => dump_file(bytes, hash, kinds, true, is_json, output),
        Err(error) => Err(Failure::Refused(error)),
    }
}

/// `odht dump` of the bytes of a file, with `--slots` and with `--json` or without: writes a line
/// for each pair, in slot order. Searches have no bound.
pub fn dump_file<O: Write>(
    bytes: &[u8],
    hash: Option<Hash>,
    kinds: Kinds,
    is_slots: bool,
    is_json: bool,
    output: &mut O,
) -> Result<Status, Failure> {
    let found = read_any(bytes, hash, kinds)?;
    let (shape, forms) = found;
    let texts = Texts::of(shape, forms);
    match shape.hash() {
        Hash::Fx => dump_table::<FxHashFn, O>(texts, bytes, is_slots, is_json, output),
        Hash::Unhash => dump_table::<UnHashFn, O>(texts, bytes, is_slots, is_json, output),
        Hash::Xxh64 => dump_table::<Xxh64HashFn, O>(texts, bytes, is_slots, is_json, output),
    }
}

// The same of a hash function.
fn dump_table<H: HashFn, O: Write>(
    texts: Texts,
    bytes: &[u8],
    is_slots: bool,
    is_json: bool,
    output: &mut O,
) -> Result<Status, Failure> {
    let table = open_lengths::<H>(lengths_of(texts.key, texts.value), bytes)?;
    if is_slots {
        return of_output(write_slots(texts, is_json, &table.as_dynamic(), output));
    }
    let pairs = table.iter();
    if is_json {
        return of_output(write_objects(texts, pairs, output));
    }
    of_output(write_lines(texts, pairs, output))
}

// Writes the object of each pair on a line.
fn write_objects<H: HashFn, O: Write>(
    texts: Texts,
    pairs: DynIter<'_, H>,
    output: &mut O,
) -> io::Result<()> {
    for (key, value) in pairs {
        write_pair_object(texts, key, value, output)?;
    }
    Ok(())
}

// Writes each pair on a line. What is written of keys is known first.
fn write_lines<H: HashFn, O: Write>(
    texts: Texts,
    pairs: DynIter<'_, H>,
    output: &mut O,
) -> io::Result<()> {
    match (texts.key, texts.forms.key) {
        (Part::U32, Form::Own) => write_values(Digits32, texts, pairs, output),
        (Part::U64, Form::Own) => write_values(Digits64, texts, pairs, output),
        (part, form) => write_values(Typed { part, form }, texts, pairs, output),
    }
}

// And then what is written of values.
fn write_values<K: TextWriter, H: HashFn, O: Write>(
    keys: K,
    texts: Texts,
    pairs: DynIter<'_, H>,
    output: &mut O,
) -> io::Result<()> {
    match (texts.value, texts.forms.value) {
        (Part::U32, Form::Own) => write_pairs(keys, Digits32, pairs, output),
        (Part::U64, Form::Own) => write_pairs(keys, Digits64, pairs, output),
        (part, form) => write_pairs(keys, Typed { part, form }, pairs, output),
    }
}

fn write_pairs<K: TextWriter, V: TextWriter, H: HashFn, O: Write>(
    keys: K,
    values: V,
    pairs: DynIter<'_, H>,
    output: &mut O,
) -> io::Result<()> {
    for (key, value) in pairs {
        write_pair_line(keys, values, key, value, output)?;
    }
    Ok(())
}

#[inline(always)]
fn write_pair_line<K: TextWriter, V: TextWriter, O: Write>(
    keys: K,
    values: V,
    key: &[u8],
    value: &[u8],
    output: &mut O,
) -> io::Result<()> {
    keys.write_text(key, output)?;
    output.write_all(b"\t")?;
    values.write_text(value, output)?;
    output.write_all(b"\n")
}
