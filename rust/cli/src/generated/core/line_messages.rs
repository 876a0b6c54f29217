// Generated from crates/odht_tool_core/src/line_messages.rt by make generate.
//! What is said of a line of standard input of which no pair is inserted.

use crate::generated::core::failure::LineFault;
use crate::generated::core::misread::{front_of, write_place, Misread, Wanted};
use crate::generated::core::shown::Shown;
use crate::host::prelude::*;
use crate::shim::{AllocError, Global};
use std::fmt;

/// What is said of the fault of the line of this number, by what its key and its value should be,
/// and the byte that stands between them.
pub fn line_message(
    alloc: Global,
    number: u64,
    fault: LineFault,
    wanted: (Wanted, Wanted),
    line: &[u8],
    delimiter: u8,
) -> Result<String, AllocError> {
    match fault {
        LineFault::NoTab if delimiter != b'\t' => {
            let uncut = Uncut { number, line, delimiter: &[delimiter] };
            crate::host::texts::formatted(alloc, format_args!("{uncut}"))
        }
        _ => Misread::of_line(number, fault, wanted, line, delimiter).message(alloc),
    }
}

/// What is said of the line of this number where an earlier one had its key.
pub fn repeated_message(
    alloc: Global,
    number: u64,
    line: &[u8],
    delimiter: u8,
) -> Result<String, AllocError> {
    let key = front_of(line, delimiter);
    let repeated = Repeated { number, key };
    crate::host::texts::formatted(alloc, format_args!("{repeated}"))
}

// A line that has no such byte.
#[derive(Clone, Copy)]
struct Uncut<'a> {
    number: u64,
    line: &'a [u8],
    delimiter: &'a [u8],
}

impl<'a> fmt::Display for Uncut<'a> {
    fn fmt(&self, f: &mut fmt::Formatter<'_>) -> fmt::Result {
        write_place(Some(self.number), f)?;
        let (line, delimiter) = (Shown(self.line), Shown(self.delimiter));
        write!(f, "{line} has no {delimiter} between key and value")
    }
}

// A line whose key an earlier line had.
#[derive(Clone, Copy)]
struct Repeated<'a> {
    number: u64,
    key: &'a [u8],
}

impl<'a> fmt::Display for Repeated<'a> {
    fn fmt(&self, f: &mut fmt::Formatter<'_>) -> fmt::Result {
        write_place(Some(self.number), f)?;
        let key = Shown(self.key);
        write!(f, "the key {key} is in the table already")
    }
}
