// Generated from crates/odht_table/src/script/check.rt by make generate.
//! The line of a script that checks bytes. It needs no table.

use crate::generated::tables::configs::U64ToU32;
use crate::generated::tables::memory_layout::check_all;
use crate::host::prelude::*;
use crate::shim::{AllocError, Global};
use std::io::{self, Write};

/// Answers a line that is no command: with the result of the whole check of the bytes that it
/// writes, or with `malformed`.
pub fn answer_check<W: Write>(alloc: Global, line: &[u8], output: &mut W) -> io::Result<()> {
    let Some(digits) = digits_of(line) else {
        return writeln!(output, "malformed");
    };
    match bytes_of(alloc, digits) {
        Ok(bytes) => write_checked(bytes.as_slice(), output),
        Err(_) => writeln!(output, "memory"),
    }
}

// The digits of a line that checks bytes: an even number of digits, and nothing else. None for any
// other line.
fn digits_of(line: &[u8]) -> Option<&[u8]> {
    let digits = line.strip_prefix(b"check ")?;
    if digits.len() % 2 == 0 && are_digits(digits) {
        Some(digits)
    } else {
        None
    }
}

// Whether each byte is a hexadecimal digit, of either case.
fn are_digits(digits: &[u8]) -> bool {
    digits.iter().all(|digit| digit.is_ascii_hexdigit())
}

// The bytes of which these are the digits.
fn bytes_of(alloc: Global, digits: &[u8]) -> Result<Vec<u8>, AllocError> {
    let count = digits.len() / 2;
    let mut bytes = crate::shim::with_capacity(alloc, count)?;
    for at in 0..count {
        let high = digit_value(digits[2 * at]);
        let low = digit_value(digits[2 * at + 1]);
        bytes.try_push(16 * high + low)?;
    }
    Ok(bytes)
}

// The number that a digit of either case writes.
fn digit_value(digit: u8) -> u8 {
    match digit {
        b'a'..=b'f' => digit - b'a' + 10,
        b'A'..=b'F' => digit - b'A' + 10,
        _ => digit - b'0',
    }
}

fn write_checked<W: Write>(bytes: &[u8], output: &mut W) -> io::Result<()> {
    match check_all::<U64ToU32>(bytes) {
        Ok(()) => writeln!(output, "valid"),
        Err(refused) => writeln!(output, "{refused}"),
    }
}
