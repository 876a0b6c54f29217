// Generated from crates/odht_tool_core/src/signed.rt by make generate.
//! Numbers with a sign as decimal digits, by their two's complement.

use crate::generated::core::digits::{parse_number, write_number};
use crate::host::prelude::*;
use std::io::{self, Write};

/// The two's complement of the number with this sign and these decimal digits, of `most + 1`
/// numbers. Only a hyphen is a sign.
pub(crate) fn parse_signed(word: &[u8], most: u64) -> Option<u64> {
    if is_negative(word) {
        return complement_of(parse_number(&word[1..])?, most);
    }
    let number = parse_number(word)?;
    if number <= most / 2 {
        Some(number)
    } else {
        None
    }
}

// Whether a word begins with a hyphen.
fn is_negative(word: &[u8]) -> bool {
    !word.is_empty() && word[0] == b'-'
}

// The two's complement of the number below zero of this size. None where it is none of `most + 1`
// numbers.
fn complement_of(size: u64, most: u64) -> Option<u64> {
    if size == 0 {
        Some(0)
    } else if size <= most / 2 + 1 {
        Some(most - (size - 1))
    } else {
        None
    }
}

/// Writes the number of which this is the two's complement, of `most + 1` numbers.
pub(crate) fn write_signed<W: Write>(number: u64, most: u64, output: &mut W) -> io::Result<()> {
    if number <= most / 2 {
        return write_number(number, output);
    }
    output.write_all(b"-")?;
    write_number(most - number + 1, output)
}
