// Generated from crates/odht_tool_reads/src/commands/keys.rt by make generate.
//! `odht keys`, and `odht dump --values`: one side of each pair of a table file.

use crate::generated::core::any::read_any;
use crate::generated::core::failure::Failure;
use crate::generated::core::forms::{Form, Kinds};
use crate::generated::core::json::pairs::write_side_object;
use crate::generated::core::shapes::{Hash, Part};
use crate::generated::core::status::{of_output, Status};
use crate::generated::core::typed::stored::{Digits32, Digits64, TextWriter, Typed};
use crate::generated::core::typed::{Side, Texts};
use crate::generated::tables::hash::HashFn;
use crate::generated::tables::raw_table::DynIter;
use crate::generated::tables::{FxHashFn, UnHashFn, Xxh64HashFn};
use crate::generated::tool_tables::dynamic::{lengths_of, open_lengths};
use crate::host::prelude::*;
use std::io::{self, Write};

/// Writes this side of each pair on a line, in slot order, of the bytes of a file; with `--json` an
/// object of it.
pub fn list_file<O: Write>(
    side: Side,
    bytes: &[u8],
    hash: Option<Hash>,
    kinds: Kinds,
    is_json: bool,
    output: &mut O,
) -> Result<Status, Failure> {
    let found = read_any(bytes, hash, kinds)?;
    let (shape, forms) = found;
    let texts = Texts::of(shape, forms);
    match shape.hash() {
        Hash::Fx => list_table::<FxHashFn, O>(side, texts, bytes, is_json, output),
        Hash::Unhash => list_table::<UnHashFn, O>(side, texts, bytes, is_json, output),
        Hash::Xxh64 => list_table::<Xxh64HashFn, O>(side, texts, bytes, is_json, output),
    }
}

// The same of a hash function.
fn list_table<H: HashFn, O: Write>(
    side: Side,
    texts: Texts,
    bytes: &[u8],
    is_json: bool,
    output: &mut O,
) -> Result<Status, Failure> {
    let table = open_lengths::<H>(lengths_of(texts.key, texts.value), bytes)?;
    let typed = texts.of_side(side);
    if is_json {
        return of_output(write_objects(side, typed, table.iter(), output));
    }
    of_output(write_lines(side, typed, table.iter(), output))
}

// Writes the object of this side of each pair on a line.
fn write_objects<H: HashFn, O: Write>(
    side: Side,
    typed: Typed,
    pairs: DynIter<'_, H>,
    output: &mut O,
) -> io::Result<()> {
    for (key, value) in pairs {
        write_side_object(side, typed, side.of(key, value), output)?;
    }
    Ok(())
}

// Writes this side of each pair on a line. How it is written is known first.
fn write_lines<H: HashFn, O: Write>(
    side: Side,
    typed: Typed,
    pairs: DynIter<'_, H>,
    output: &mut O,
) -> io::Result<()> {
    match (typed.part, typed.form) {
        (Part::U32, Form::Own) => write_sides(side, Digits32, pairs, output),
        (Part::U64, Form::Own) => write_sides(side, Digits64, pairs, output),
        _ => write_sides(side, typed, pairs, output),
    }
}

fn write_sides<T: TextWriter, H: HashFn, O: Write>(
    side: Side,
    texts: T,
    pairs: DynIter<'_, H>,
    output: &mut O,
) -> io::Result<()> {
    for (key, value) in pairs {
        write_line(texts, side.of(key, value), output)?;
    }
    Ok(())
}

#[inline(always)]
fn write_line<T: TextWriter, O: Write>(texts: T, bytes: &[u8], output: &mut O) -> io::Result<()> {
    texts.write_text(bytes, output)?;
    output.write_all(b"\n")
}
