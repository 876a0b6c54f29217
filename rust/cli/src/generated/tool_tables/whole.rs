// Generated from crates/odht_tool_tables/src/whole.rt by make generate.
//! The shape of a file whose bytes are checked whole, and whether two of them have the same
//! lengths.

use crate::generated::core::any::{read_any, AnyShape};
use crate::generated::core::evidence::ask_key;
use crate::generated::core::failure::Failure;
use crate::generated::core::forms::{GivenForms, Kinds};
use crate::generated::core::shapes::Hash;
use crate::generated::tool_tables::checks::check_any;
use crate::host::prelude::*;
use std::io::{self, Write};

/// The shape of the bytes of a file, and the forms of its keys and values, as `read_any` has them;
/// or the first rule that the bytes break, the bound of searches among them where there is one.
pub fn read_whole(
    bytes: &[u8],
    hash: Option<Hash>,
    kinds: Kinds,
    bound: Option<usize>,
) -> Result<(AnyShape, GivenForms), Failure> {
    let found = read_any(bytes, hash, kinds)?;
    let (shape, _) = found;
    match check_any(shape, bytes, bound) {
        Ok(()) => Ok(found),
        Err(error) => Err(Failure::Refused(error)),
    }
}

/// The same for a command that writes, and finds keys by their texts: `UnknownKey` where nothing is
/// said of keys, and the bytes do not show which type they are of.
pub fn read_asked(
    bytes: &[u8],
    hash: Option<Hash>,
    kinds: Kinds,
    bound: Option<usize>,
) -> Result<(AnyShape, GivenForms), Failure> {
    let found = read_whole(bytes, hash, kinds, bound)?;
    let (shape, _) = found;
    ask_key(bytes, shape, kinds)?;
    Ok(found)
}

/// Whether keys and values of two shapes have the same lengths.
pub fn have_same_sizes(first: AnyShape, second: AnyShape) -> bool {
    first.key().size() == second.key().size() && first.value().size() == second.value().size()
}

/// The lengths of the keys and values of a shape.
pub fn sizes_of(shape: AnyShape) -> (u8, u8) {
    (shape.key().size(), shape.value().size())
}

/// Writes a line that says which lengths the other file has, and which the first one.
pub fn write_sizes<E: Write>(
    other: &str,
    file: &str,
    found: (u8, u8),
    expected: (u8, u8),
    errors: &mut E,
) -> io::Result<()> {
    let (key, value) = found;
    let (first_key, first_value) = expected;
    write!(
        errors,
        "odht: {other}: its keys have {key} and its values {value} bytes, those of {file} "
    )?;
    writeln!(errors, "{first_key} and {first_value}")
}
