// Generated from crates/odht_tool_core/src/json/pairs.rt by make generate.
//! Pairs, and sides of pairs, as objects of JSON, each on a line.

use crate::generated::core::forms::Form;
use crate::generated::core::json::write_string;
use crate::generated::core::shapes::Part;
use crate::generated::core::text::write_bytes;
use crate::generated::core::typed::stored::Typed;
use crate::generated::core::typed::{plain_bytes, write_stored, Side, Texts};
use crate::host::prelude::*;
use std::io::{self, Write};
use std::str::from_utf8;

/// Writes the object of the pair that is stored as these bytes, on a line.
pub fn write_pair_object<O: Write>(
    texts: Texts,
    key: &[u8],
    value: &[u8],
    output: &mut O,
) -> io::Result<()> {
    output.write_all(b"{")?;
    write_pair_fields(texts, key, value, output)
}

/// Writes the fields of the pair that is stored as these bytes, the end of their object, and of
/// its line.
pub(crate) fn write_pair_fields<O: Write>(
    texts: Texts,
    key: &[u8],
    value: &[u8],
    output: &mut O,
) -> io::Result<()> {
    write_stored_field("key", texts.key, texts.forms.key, key, output)?;
    output.write_all(b",")?;
    write_stored_field("value", texts.value, texts.forms.value, value, output)?;
    output.write_all(b"}\n")
}

/// Writes the object of one side of a pair, which is of this type and stored as these bytes, on a
/// line.
pub fn write_side_object<O: Write>(
    side: Side,
    typed: Typed,
    bytes: &[u8],
    output: &mut O,
) -> io::Result<()> {
    output.write_all(b"{")?;
    write_stored_field(side.name(), typed.part, typed.form, bytes, output)?;
    output.write_all(b"}\n")
}

// Writes a field that is the text of a key or a value of this type, which is stored as these
// bytes.
fn write_stored_field<O: Write>(
    name: &str,
    part: Part,
    form: Form,
    bytes: &[u8],
    output: &mut O,
) -> io::Result<()> {
    if let Some(text) = plain_bytes(part, form, bytes) {
        return write_any_field(name, text, output);
    }
    write!(output, "\"{name}\":\"")?;
    write_stored(part, form, bytes, output)?;
    output.write_all(b"\"")
}

/// Writes a field that is a text of any bytes.
pub(crate) fn write_any_field<O: Write>(name: &str, text: &[u8], output: &mut O) -> io::Result<()> {
    match from_utf8(text) {
        Ok(_) => {
            write!(output, "\"{name}\":")?;
            write_string(text, output)
        }
        Err(_) => {
            write!(output, "\"{name}_hex\":\"")?;
            write_bytes(text, output)?;
            output.write_all(b"\"")
        }
    }
}
