// Generated from crates/odht_tool_core/src/shown.rt by make generate.
//! Bytes as they are shown in a message, whatever they are.

use crate::host::prelude::*;
use std::fmt;

/// How many bytes are shown of longer ones.
const MOST: usize = 60;

/// Bytes between quotes: printable characters as they are, others by their numbers, and of many
/// the first alone.
#[derive(Clone, Copy)]
pub(crate) struct Shown<'a>(pub(crate) &'a [u8]);

impl<'a> fmt::Display for Shown<'a> {
    fn fmt(&self, f: &mut fmt::Formatter<'_>) -> fmt::Result {
        let bytes = self.0;
        write!(f, "\"")?;
        write_bytes(first_of(bytes), f)?;
        write!(f, "\"")?;
        write_more(bytes.len(), f)
    }
}

// The bytes that are shown.
fn first_of(bytes: &[u8]) -> &[u8] {
    if bytes.len() > MOST {
        &bytes[..MOST]
    } else {
        bytes
    }
}

// Writes what each byte is shown as.
fn write_bytes(bytes: &[u8], f: &mut fmt::Formatter<'_>) -> fmt::Result {
    for byte in bytes {
        write_byte(*byte, f)?;
    }
    Ok(())
}

fn write_byte(byte: u8, f: &mut fmt::Formatter<'_>) -> fmt::Result {
    match byte {
        b'\t' => f.write_str("\\t"),
        b'"' => f.write_str("\\\""),
        b'\\' => f.write_str("\\\\"),
        b' '..=b'~' => f.write_char(char::from(byte)),
        _ => write_escape(byte, f),
    }
}

fn write_escape(byte: u8, f: &mut fmt::Formatter<'_>) -> fmt::Result {
    write!(f, "\\x{byte:02x}")
}

// Writes how many bytes there are, where not all are shown.
fn write_more(count: usize, f: &mut fmt::Formatter<'_>) -> fmt::Result {
    if count > MOST {
        write!(f, "... ({count} bytes)")
    } else {
        Ok(())
    }
}
