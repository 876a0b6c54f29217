// Generated from crates/odht_tool_core/src/answers.rt by make generate.
//! The lines in which pairs and answers are printed.

use crate::generated::core::forms::{Form, Forms, OwnForms};
use crate::generated::core::written::Written;
use crate::host::prelude::*;
use crate::shim::{AllocError, Global};
use std::io::{self, Write};

/// Writes a line of a key, a tab and a value, in the texts that their types have.
#[inline(always)]
pub fn write_pair<K: Written, V: Written, O: Write>(
    key: &K,
    value: &V,
    output: &mut O,
) -> io::Result<()> {
    write_pair_as(key, value, OwnForms, output)
}

/// Writes a line of a key, a tab and a value, in texts of these forms. Each part is written by
/// itself: a buffer behind `output` that becomes full is passed on with as many parts as fit.
#[inline(always)]
pub fn write_pair_as<K: Written, V: Written, F: Forms, O: Write>(
    key: &K,
    value: &V,
    forms: F,
    output: &mut O,
) -> io::Result<()> {
    key.write(forms.key(), output)?;
    output.write_all(b"\t")?;
    value.write(forms.value(), output)?;
    output.write_all(b"\n")
}

/// Writes a line for each key: with its value, or the key alone where it has none; in the texts
/// that their types have. With no keys it writes nothing, and does not fail.
#[inline]
pub fn write_answers<K: Written, V: Written, O: Write>(
    keys: &[K],
    values: &[Option<V>],
    output: &mut O,
) -> io::Result<()> {
    write_answers_as(keys, values, OwnForms, output)
}

/// `write_answers` in texts of these forms.
pub fn write_answers_as<K: Written, V: Written, F: Forms, O: Write>(
    keys: &[K],
    values: &[Option<V>],
    forms: F,
    output: &mut O,
) -> io::Result<()> {
    for at in 0..keys.len() {
        write_answer(&keys[at], &values[at], forms, output)?;
    }
    Ok(())
}

/// So many values, all absent.
pub fn absent_values<V: Copy>(alloc: Global, count: usize) -> Result<Vec<Option<V>>, AllocError> {
    crate::host::lists::filled(alloc, None, count)
}

/// Whether each key has a value.
pub fn are_found<V>(values: &[Option<V>]) -> bool {
    values.iter().all(|value| value.is_some())
}

/// Writes the line of a key with its value, or only the key.
pub(crate) fn write_answer<K: Written, V: Written, F: Forms, O: Write>(
    key: &K,
    value: &Option<V>,
    forms: F,
    output: &mut O,
) -> io::Result<()> {
    match value {
        Some(value) => write_pair_as(key, value, forms, output),
        None => {
            key.write(forms.key(), output)?;
            output.write_all(b"\n")
        }
    }
}
