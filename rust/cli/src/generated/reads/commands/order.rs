// Generated from crates/odht_tool_reads/src/commands/order.rt by make generate.
//! `odht order`: the pairs of a table file, in an order of inserts that makes it.

use crate::generated::core::failure::Failure;
use crate::generated::core::forms::Kinds;
use crate::generated::core::shapes::Hash;
use crate::generated::core::status::{of_output, Status};
use crate::generated::core::typed::Texts;
use crate::generated::tables::bytes::Borrowed;
use crate::generated::tables::dynamic::{DynTable, Layout};
use crate::generated::tables::hash::HashFn;
use crate::generated::tables::{FxHashFn, UnHashFn, Xxh64HashFn};
use crate::generated::tool_tables::dynamic::lengths_of;
use crate::generated::tool_tables::whole::read_whole;
use crate::host::prelude::*;
use crate::shim::{AllocError, Global};
use std::io::{self, Write};

/// `odht order` of the bytes of a file: writes a line for each pair, in an order of inserts that
/// makes the table; or nothing where no inserts make it, with the status `NotDone`. They are
/// checked whole before, with the bound of searches where there is one.
pub fn order_file<O: Write>(
    alloc: Global,
    bytes: &[u8],
    hash: Option<Hash>,
    kinds: Kinds,
    bound: Option<usize>,
    output: &mut O,
) -> Result<Status, Failure> {
    let found = read_whole(bytes, hash, kinds, bound)?;
    let (shape, forms) = found;
    let texts = Texts::of(shape, forms);
    match shape.hash() {
        Hash::Fx => order_pairs::<FxHashFn, O>(alloc, texts, bytes, output),
        Hash::Unhash => order_pairs::<UnHashFn, O>(alloc, texts, bytes, output),
        Hash::Xxh64 => order_pairs::<Xxh64HashFn, O>(alloc, texts, bytes, output),
    }
}

// The same of a valid table of a hash function.
fn order_pairs<H: HashFn, O: Write>(
    alloc: Global,
    texts: Texts,
    bytes: &[u8],
    output: &mut O,
) -> Result<Status, Failure> {
    let layout = lengths_of(texts.key, texts.value);
    match order_of_slots::<H>(alloc, layout, bytes)? {
        Some(order) => {
            let order = order.as_slice();
            of_output(write_order::<H, O>(texts, layout, bytes, order, output))
        }
        None => Ok(Status::NotDone),
    }
}

// The slots of a valid table of these lengths in an insert order. None where no inserts make it.
fn order_of_slots<H: HashFn>(
    alloc: Global,
    layout: Layout,
    bytes: &[u8],
) -> Result<Option<Vec<usize>>, AllocError> {
    let table = DynTable::<H, Borrowed<'_>>::open_unchecked(layout, Borrowed::new(bytes));
    let (count, scratch_len) = (table.len(), table.insert_order_scratch());
    let mut order = crate::host::lists::filled(alloc, 0, count)?;
    let mut scratch = crate::host::lists::filled(alloc, 0, scratch_len)?;
    if table.insert_order_with(order.as_mut_slice(), scratch.as_mut_slice()) {
        Ok(Some(order))
    } else {
        Ok(None)
    }
}

// Writes the pairs of these slots, each on a line.
fn write_order<H: HashFn, O: Write>(
    texts: Texts,
    layout: Layout,
    bytes: &[u8],
    order: &[usize],
    output: &mut O,
) -> io::Result<()> {
    let table = DynTable::<H, Borrowed<'_>>::open_unchecked(layout, Borrowed::new(bytes));
    let slots = table.as_dynamic();
    for slot in order {
        texts.write_pair(slots.key(*slot), slots.value(*slot), output)?;
    }
    Ok(())
}

/// Writes a line that says that no inserts make the table of the file.
pub fn write_unmade<E: Write>(file: &str, errors: &mut E) -> io::Result<()> {
    writeln!(errors, "odht: {file}: no inserts make this table")
}
