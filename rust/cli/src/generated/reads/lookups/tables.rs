// Generated from crates/odht_tool_reads/src/lookups/tables.rt by make generate.
//! Lookups in the tables of configurations, and of lengths that are known only at run time.

use super::Lookups;
use crate::generated::core::answers::{absent_values, are_found};
use crate::generated::core::dynamic_bytes::DynBytes;
use crate::generated::core::failure::Failure;
use crate::generated::core::forms::Forms;
use crate::generated::core::json::answers::{write_answer_in, write_answers_in, AnswerStyle};
use crate::generated::core::key_lists::{ByteKeys, Keys};
use crate::generated::core::text::Text;
use crate::generated::tables::bytes::Borrowed;
use crate::generated::tables::config::Config;
use crate::generated::tables::dynamic::{DynTable, ShortBytes};
use crate::generated::tables::hash::HashFn;
use crate::generated::tables::HashTable;
use crate::host::prelude::*;
use crate::shim::{AllocError, Global};
use std::io::Write;

impl<'a, C: Config> Lookups for HashTable<C, Borrowed<'a>>
where
    C::Key: Text,
    C::Value: Text,
{
    type Keys = Vec<C::Key>;

    type Value = C::Value;

    fn no_keys(&self, alloc: Global) -> Vec<C::Key> {
        crate::host::lists::empty(alloc)
    }

    #[inline(always)]
    fn answer<F: Forms, O: Write>(
        &self,
        alloc: Global,
        keys: &Vec<C::Key>,
        style: AnswerStyle<F>,
        output: &mut O,
    ) -> Result<bool, Failure> {
        answer_typed(alloc, self, keys.as_slice(), style, output)
    }
}

#[inline(always)]
fn answer_typed<C: Config, F: Forms, O: Write>(
    alloc: Global,
    table: &HashTable<C, Borrowed<'_>>,
    keys: &[C::Key],
    style: AnswerStyle<F>,
    output: &mut O,
) -> Result<bool, Failure>
where
    C::Key: Text,
    C::Value: Text,
{
    let values = values_of(alloc, table, keys)?;
    let values = values.as_slice();
    write_answers_in(keys, values, style, output).map_err(Failure::Output)?;
    Ok(are_found(values))
}

// The value of each key.
#[inline(always)]
fn values_of<C: Config>(
    alloc: Global,
    table: &HashTable<C, Borrowed<'_>>,
    keys: &[C::Key],
) -> Result<Vec<Option<C::Value>>, AllocError>
where
    C::Value: Text,
{
    let mut values = absent_values::<C::Value>(alloc, keys.len())?;
    table.get_all(keys, values.as_mut_slice());
    Ok(values)
}

impl<'a, H: HashFn> Lookups for DynTable<H, Borrowed<'a>> {
    type Keys = ByteKeys;

    type Value = ShortBytes;

    fn no_keys(&self, alloc: Global) -> ByteKeys {
        ByteKeys::none(alloc, self.layout().key_len)
    }

    fn answer<F: Forms, O: Write>(
        &self,
        _alloc: Global,
        keys: &ByteKeys,
        style: AnswerStyle<F>,
        output: &mut O,
    ) -> Result<bool, Failure> {
        answer_each(self, keys, style, output)
    }
}

fn answer_each<H: HashFn, F: Forms, O: Write>(
    table: &DynTable<H, Borrowed<'_>>,
    keys: &ByteKeys,
    style: AnswerStyle<F>,
    output: &mut O,
) -> Result<bool, Failure> {
    let mut is_all_found = true;
    for at in 0..keys.count() {
        let is_found = answer_one(table, keys.at(at), style, output)?;
        is_all_found = is_found && is_all_found;
    }
    Ok(is_all_found)
}

// Looks a key up, and writes its line, of the value where it lies. Returns whether it was found.
fn answer_one<H: HashFn, F: Forms, O: Write>(
    table: &DynTable<H, Borrowed<'_>>,
    key: &[u8],
    style: AnswerStyle<F>,
    output: &mut O,
) -> Result<bool, Failure> {
    let value = in_place(table.get(key));
    write_answer_in(&DynBytes::of(key), &value, style, output).map_err(Failure::Output)?;
    Ok(value.is_some())
}

// The value where it lies.
fn in_place(value: Option<&[u8]>) -> Option<DynBytes<'_>> {
    match value {
        Some(value) => Some(DynBytes::of(value)),
        None => None,
    }
}

/// The value of a key, if it has one.
pub(super) fn value_of<H: HashFn>(
    table: &DynTable<H, Borrowed<'_>>,
    key: &ShortBytes,
) -> Option<ShortBytes> {
    // To look at the lengths is what tells that a value is short.
    let _ = table.layout();
    match table.get(key.as_slice()) {
        Some(value) => Some(ShortBytes::of(value)),
        None => None,
    }
}
