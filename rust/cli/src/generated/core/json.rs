// Generated from crates/odht_tool_core/src/json.rt by make generate.
//! Texts of JSON: strings, and the fields of objects.

use crate::host::prelude::*;

pub mod answers;
pub(crate) mod displayed;
pub mod pairs;
pub mod slots;

use crate::generated::core::text::write_bytes;
use std::io::{self, Write};

/// Writes a text as a string of JSON.
pub fn write_string<O: Write>(text: &[u8], output: &mut O) -> io::Result<()> {
    output.write_all(b"\"")?;
    write_escaped(text, output)?;
    output.write_all(b"\"")
}

// Writes each byte as it stands in a string.
fn write_escaped<O: Write>(text: &[u8], output: &mut O) -> io::Result<()> {
    for byte in text {
        write_byte(*byte, output)?;
    }
    Ok(())
}

fn write_byte<O: Write>(byte: u8, output: &mut O) -> io::Result<()> {
    match byte {
        b'"' | b'\\' => output.write_all(&[b'\\', byte]),
        0..=31 => {
            output.write_all(b"\\u00")?;
            write_bytes(&[byte], output)
        }
        _ => output.write_all(&[byte]),
    }
}

/// Writes the begin of an object whose first field is the name of a file.
pub fn write_file_field<O: Write>(file: &str, output: &mut O) -> io::Result<()> {
    output.write_all(b"{\"file\":")?;
    write_string(file.as_bytes(), output)
}
