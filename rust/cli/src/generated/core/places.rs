// Generated from crates/odht_tool_core/src/places.rt by make generate.
//! Where a byte first stands, found in sixteen lanes of a vector at once.

use crate::host::prelude::*;
use crate::host::simd::prelude::*;

/// The first place of the byte, or the length where it is nowhere.
pub(crate) fn place_of(bytes: &[u8], byte: u8) -> usize {
    let mut at = 0;
    while bytes.len() - at >= 16 {
        let place = place_in_lanes(&bytes[at..at + 16], byte);
        if place < 16 {
            return at + place;
        }
        at += 16;
    }
    if at == bytes.len() {
        return at;
    }
    if at == 0 {
        return place_in_few(bytes, byte);
    }
    // The last sixteen, of which some were looked at before.
    let last = bytes.len() - 16;
    last + place_in_lanes(&bytes[last..], byte)
}

// The same of sixteen bytes.
#[inline(always)]
fn place_in_lanes(bytes: &[u8], byte: u8) -> usize {
    let bits = u8x16::from_slice(bytes).simd_eq(u8x16::splat(byte)).to_bitmask();
    if bits == 0 {
        16
    } else {
        bits.trailing_zeros() as usize
    }
}

// The same of a few bytes, one after the other.
#[inline(always)]
fn place_in_few(bytes: &[u8], byte: u8) -> usize {
    let mut at = 0;
    while at < bytes.len() && bytes[at] != byte {
        at += 1;
    }
    at
}

/// The bytes in front of the first place of the byte, and those behind it. None where it is
/// nowhere.
#[inline]
pub fn cut_at(bytes: &[u8], byte: u8) -> Option<(&[u8], &[u8])> {
    let at = place_of(bytes, byte);
    if at == bytes.len() {
        return None;
    }
    Some((&bytes[..at], &bytes[at + 1..]))
}
