// Generated from crates/odht_tool_core/src/digits.rt by make generate.
//! Numbers as decimal digits.

use crate::host::prelude::*;
use crate::host::simd::prelude::*;
use std::io::{self, Write};

// The number of any that many digits fits 64 bits.
const SAFE_DIGITS: usize = 19;

// The digits of the numbers below 100, two each.
static PAIRS: [u8; 200] = *b"\
    00010203040506070809101112131415161718192021222324252627282930313233343536373839\
    40414243444546474849505152535455565758596061626364656667686970717273747576777879\
    8081828384858687888990919293949596979899";

/// The number with these decimal digits. A sign is not a digit.
pub(crate) fn parse_number(word: &[u8]) -> Option<u64> {
    if word.is_empty() {
        return None;
    }
    if word.len() <= SAFE_DIGITS {
        return parse_short(word);
    }
    let front = parse_short(&word[..SAFE_DIGITS])?;
    parse_rest(front, &word[SAFE_DIGITS..])
}

// The number of so few digits that each step fits, eight of them at a time.
fn parse_short(digits: &[u8]) -> Option<u64> {
    let mut number: u64 = 0;
    let mut rest = digits;
    while let Some((eight, next)) = rest.split_first_chunk::<8>() {
        let Some(value) = parse_eight(eight) else {
            return None;
        };
        number = 100_000_000 * number + value;
        rest = next;
    }
    parse_few(number, rest)
}

// The number of eight digits, which are looked at in the lanes of one vector.
#[inline(always)]
fn parse_eight(digits: &[u8; 8]) -> Option<u64> {
    let lanes = u8x8::from_array(*digits);
    let below = lanes.simd_lt(u8x8::splat(b'0')).to_bitmask();
    let above = lanes.simd_gt(u8x8::splat(b'9')).to_bitmask();
    if below != 0 || above != 0 {
        return None;
    }
    Some(value_of_eight(u64::from_le_bytes(*digits)))
}

// The number of the eight digits that are the bytes of a word, the first of them the lowest. Ten
// times the digits and the digits one byte further on make a number of two digits in each second
// byte.
#[inline(always)]
fn value_of_eight(word: u64) -> u64 {
    let digits = word - 0x3030_3030_3030_3030;
    let pairs = 10 * digits + digits / 0x100;
    1_000_000 * (pairs % 0x100)
        + 10_000 * (pairs / 0x1_0000 % 0x100)
        + 100 * (pairs / 0x1_0000_0000 % 0x100)
        + pairs / 0x1_0000_0000_0000 % 0x100
}

// The number of the digits of `front` and these behind them, of which there are so few that each
// step fits.
#[inline(always)]
fn parse_few(front: u64, digits: &[u8]) -> Option<u64> {
    let mut number = front;
    for digit in digits {
        if *digit < b'0' || *digit > b'9' {
            return None;
        }
        number = 10 * number + (*digit - b'0') as u64;
    }
    Some(number)
}

// The number of the digits of `front` and these behind them. None as soon as it no longer fits.
#[cold]
fn parse_rest(front: u64, digits: &[u8]) -> Option<u64> {
    let mut number = front;
    for digit in digits {
        if *digit < b'0' || *digit > b'9' {
            return None;
        }
        let Some(next) = push_digit(number, *digit - b'0') else {
            return None;
        };
        number = next;
    }
    Some(number)
}

// The number with one digit more. None where it does not fit.
fn push_digit(number: u64, digit: u8) -> Option<u64> {
    let tens = number.checked_mul(10)?;
    tens.checked_add(u64::from(digit))
}

/// Writes the decimal digits of a number, in one piece.
#[inline(always)]
pub(crate) fn write_number<W: Write>(number: u64, output: &mut W) -> io::Result<()> {
    let mut text = [0; 24];
    let start = put_number(number, &mut text);
    output.write_all(&text[start..])
}

// Puts the digits at the end of `text`, four for each division. Returns where they begin.
#[inline(never)]
fn put_number(number: u64, text: &mut [u8; 24]) -> usize {
    let mut rest = number;
    let mut end = 24;
    while rest >= 10_000 {
        put_four(rest % 10_000, text, end);
        rest /= 10_000;
        end -= 4;
    }
    put_front(rest, text, end)
}

// Puts the digits of a number of at most four before `end`. Returns where they begin. Whether
// there are one or two, or three or four, is no branch: that would be guessed wrong as often as
// not.
#[inline(always)]
fn put_front(number: u64, text: &mut [u8; 24], end: usize) -> usize {
    if number < 100 {
        put_pair(number, text, end);
        return end - 1 - one_from(number, 10);
    }
    put_four(number, text, end);
    end - 3 - one_from(number, 1000)
}

#[inline(always)]
fn one_from(number: u64, least: u64) -> usize {
    if number >= least {
        1
    } else {
        0
    }
}

// Puts the four digits of a number below 10,000 before `end`.
#[inline(always)]
fn put_four(four: u64, text: &mut [u8; 24], end: usize) {
    put_pair(four % 100, text, end);
    put_pair(four / 100, text, end - 2);
}

// Puts the two digits of a number below 100 before `end`.
#[inline(always)]
fn put_pair(pair: u64, text: &mut [u8; 24], end: usize) {
    let at = 2 * pair as usize;
    let (tens, ones) = (PAIRS[at], PAIRS[at + 1]);
    text[end - 2] = tens;
    text[end - 1] = ones;
}
