// Generated from crates/odht_tool_core/src/json/displayed.rt by make generate.
//! Strings of JSON of what is displayed.

use crate::generated::core::json::write_escaped;
use crate::host::prelude::*;
use std::fmt;
use std::io::{self, ErrorKind, Write};

/// A writer of what stands in a string. It keeps the error that `fmt::Error` cannot carry.
struct Inside<'a, O> {
    output: &'a mut O,
    error: Option<io::Error>,
}

impl<O: Write> fmt::Write for Inside<'_, O> {
    fn write_str(&mut self, text: &str) -> fmt::Result {
        match write_escaped(text.as_bytes(), self.output) {
            Ok(()) => Ok(()),
            Err(error) => {
                self.error = Some(error);
                Err(fmt::Error)
            }
        }
    }
}

/// Writes what is displayed as a string of JSON.
pub(crate) fn write_displayed<D: fmt::Display, O: Write>(
    shown: D,
    output: &mut O,
) -> io::Result<()> {
    output.write_all(b"\"")?;
    write_inside(shown, output)?;
    output.write_all(b"\"")
}

// Writes each byte as it stands in a string.
fn write_inside<D: fmt::Display, O: Write>(shown: D, output: &mut O) -> io::Result<()> {
    let mut inside = Inside { output, error: None };
    let written = write_shown(shown, &mut inside);
    let Inside { output, error } = inside;
    // No effect at run time. The proof reads what the writer holds from this use of it.
    let _ = &*output;
    first_error(error, written)
}

fn write_shown<D: fmt::Display, T: fmt::Write>(shown: D, to: &mut T) -> fmt::Result {
    write!(to, "{shown}")
}

// The error of the writer, where it has one.
fn first_error(error: Option<io::Error>, written: fmt::Result) -> io::Result<()> {
    match (error, written) {
        (Some(error), _) => Err(error),
        (None, Ok(())) => Ok(()),
        (None, Err(_)) => Err(io::Error::from(ErrorKind::Other)),
    }
}
