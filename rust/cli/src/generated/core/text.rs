// Generated from crates/odht_tool_core/src/text.rt by make generate.
//! Keys and values as text: a number in decimal digits, with a sign or without, bytes in
//! hexadecimal digits or as plain text, and nothing at all.

use crate::generated::core::digits::parse_number;
use crate::generated::core::forms::Form;
use crate::generated::core::hexadecimal::read_many;
use crate::generated::core::misread::Wanted;
use crate::generated::core::plain::parse_plain;
use crate::generated::core::signed::parse_signed;
use crate::generated::core::written::Written;
use crate::host::prelude::*;
use std::io::{self, Write};

/// A key or a value that has a text in each form, and is read from it.
pub trait Text: Written + Copy {
    /// What its texts are.
    fn wanted(form: Form) -> Wanted;

    /// The value of which the word is the text. None where it is the text of no such value.
    fn parse(word: &[u8], form: Form) -> Option<Self>;
}

impl Text for u32 {
    fn wanted(form: Form) -> Wanted {
        match form {
            Form::Signed => Wanted::I32,
            _ => Wanted::U32,
        }
    }

    fn parse(word: &[u8], form: Form) -> Option<u32> {
        match form {
            Form::Signed => u32::try_from(parse_signed(word, u64::from(u32::MAX))?).ok(),
            Form::BigEndian => {
                let number = u32::try_from(parse_number(word)?).ok()?;
                Some(number.swap_bytes())
            }
            _ => u32::try_from(parse_number(word)?).ok(),
        }
    }
}

impl Text for u64 {
    fn wanted(form: Form) -> Wanted {
        match form {
            Form::Signed => Wanted::I64,
            _ => Wanted::U64,
        }
    }

    fn parse(word: &[u8], form: Form) -> Option<u64> {
        match form {
            Form::Signed => parse_signed(word, u64::MAX),
            Form::BigEndian => {
                let number = parse_number(word)?;
                Some(number.swap_bytes())
            }
            _ => parse_number(word),
        }
    }
}

impl Text for () {
    fn wanted(_form: Form) -> Wanted {
        Wanted::Nothing
    }

    fn parse(word: &[u8], _form: Form) -> Option<()> {
        if word.is_empty() {
            Some(())
        } else {
            None
        }
    }
}

impl<const N: usize> Text for [u8; N] {
    fn wanted(form: Form) -> Wanted {
        match form {
            Form::Plain => Wanted::Text(N),
            _ => Wanted::Bytes(N),
        }
    }

    fn parse(word: &[u8], form: Form) -> Option<[u8; N]> {
        match form {
            Form::Plain => parse_plain(word),
            _ => parse_bytes(word),
        }
    }
}

// The bytes with these hexadecimal digits, two for each byte, letters in either case.
fn parse_bytes<const N: usize>(word: &[u8]) -> Option<[u8; N]> {
    if word.len() % 2 != 0 || word.len() / 2 != N {
        return None;
    }
    if N <= 32 {
        parse_in_vectors(word)
    } else {
        parse_in_turn(word)
    }
}

/// The bytes, at most 32, with these hexadecimal digits: first the value of each digit, then the
/// byte of each two, so that the compiler makes vectors of both loops. All are read before a wrong
/// one is noticed, so that no step branches on a digit.
#[inline(always)]
pub(crate) fn parse_in_vectors<const N: usize>(word: &[u8]) -> Option<[u8; N]> {
    let mut values = [0; 64];
    if put_values(word, &mut values) >= 16 {
        return None;
    }
    let mut bytes = [0; N];
    for at in 0..N {
        let pair = u16::from_le_bytes([values[2 * at], values[2 * at + 1]]);
        bytes[at] = (16 * (pair % 16) + pair / 256) as u8;
    }
    Some(bytes)
}

// Puts the value of each digit at its place. Returns the largest, which is 16 where a byte is no
// digit.
#[inline(always)]
fn put_values(digits: &[u8], values: &mut [u8; 64]) -> u8 {
    let mut largest = 0;
    for at in 0..digits.len() {
        let value = digit_value(digits[at]);
        values[at] = value;
        largest = max_of(largest, value);
    }
    largest
}

// The same of any number of bytes.
fn parse_in_turn<const N: usize>(word: &[u8]) -> Option<[u8; N]> {
    let mut bytes = [0; N];
    if read_many(word, &mut bytes) {
        Some(bytes)
    } else {
        None
    }
}

fn max_of(a: u8, b: u8) -> u8 {
    if a < b {
        b
    } else {
        a
    }
}

/// The number of a hexadecimal digit of either case, and 16 of any other byte.
#[inline(always)]
pub(crate) fn digit_value(byte: u8) -> u8 {
    match byte {
        b'0'..=b'9' => byte - b'0',
        b'a'..=b'f' => byte - b'a' + 10,
        b'A'..=b'F' => byte - b'A' + 10,
        _ => 16,
    }
}

/// Writes two lower-case digits for each byte, those of each byte by themselves. The error is that
/// of the writer, and nothing is written after it.
// They are put together for 32 bytes at once.
pub fn write_bytes<W: Write>(bytes: &[u8], output: &mut W) -> io::Result<()> {
    let mut text = [0; 64];
    let mut rest = bytes;
    while !rest.is_empty() {
        let (piece, next) = rest.split_at(rest.len().min(32));
        put_bytes(piece, &mut text);
        write_in_pairs(&text[..2 * piece.len()], output)?;
        rest = next;
    }
    Ok(())
}

// Writes the digits of each byte by themselves. A buffer behind `output` that becomes full is then
// passed on with as many digits as fit, however long the text is.
#[inline(always)]
fn write_in_pairs<W: Write>(digits: &[u8], output: &mut W) -> io::Result<()> {
    let mut fault = None;
    let mut rest = digits;
    while let Some((pair, next)) = rest.split_first_chunk::<2>() {
        if !is_written(pair, output, &mut fault) {
            break;
        }
        rest = next;
    }
    match fault {
        None => Ok(()),
        Some(error) => Err(error),
    }
}

// Writes two digits. Where that fails, `fault` becomes the error.
#[inline(always)]
fn is_written<W: Write>(pair: &[u8; 2], output: &mut W, fault: &mut Option<io::Error>) -> bool {
    went_well(output.write_all(pair), fault)
}

// Whether this went well. Where it did not, `fault` becomes its error.
//
// The error is put where it stays. As a part of the result it would be copied for each two digits,
// and zeros in its place where there is none.
#[inline(always)]
fn went_well(written: io::Result<()>, fault: &mut Option<io::Error>) -> bool {
    match written {
        Ok(()) => true,
        Err(error) => {
            *fault = Some(error);
            false
        }
    }
}

// Puts two lower-case digits for each byte at the front of `text`, which is long enough.
#[inline(always)]
fn put_bytes(bytes: &[u8], text: &mut [u8]) {
    for at in 0..bytes.len() {
        let byte = bytes[at];
        text[2 * at] = hex_digit(byte / 16);
        text[2 * at + 1] = hex_digit(byte % 16);
    }
}

#[inline(always)]
fn hex_digit(value: u8) -> u8 {
    if value < 10 {
        b'0' + value
    } else {
        b'a' + (value - 10)
    }
}
