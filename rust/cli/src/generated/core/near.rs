// Generated from crates/odht_tool_core/src/near.rt by make generate.
//! Words that one slip makes of each other.

use crate::host::prelude::*;

/// Whether one slip makes one word of the other: a byte left out or too many, another byte in the
/// place of one, or two neighbours that have changed places.
pub fn is_near(one: &[u8], other: &[u8]) -> bool {
    for at in 0..one.len() + 1 {
        if is_slip(one, other, at) {
            return true;
        }
    }
    false
}

// Whether a slip at this byte makes one word of the other.
fn is_slip(one: &[u8], other: &[u8], at: usize) -> bool {
    is_without(at, one, other)
        || is_without(at, other, one)
        || is_replaced(at, one, other)
        || is_swapped(at, one, other)
}

// Whether one word without this byte is the other.
fn is_without(at: usize, one: &[u8], other: &[u8]) -> bool {
    at < one.len() && at <= other.len() && one[..at] == other[..at] && one[at + 1..] == other[at..]
}

// Whether both are the same but for this byte.
fn is_replaced(at: usize, one: &[u8], other: &[u8]) -> bool {
    at < one.len()
        && at < other.len()
        && one[..at] == other[..at]
        && one[at + 1..] == other[at + 1..]
}

// Whether both are the same but for this byte and the next one, which have changed places.
fn is_swapped(at: usize, one: &[u8], other: &[u8]) -> bool {
    at < one.len()
        && at < other.len()
        && at + 1 < one.len()
        && at + 1 < other.len()
        && one[..at] == other[..at]
        && one[at] == other[at + 1]
        && one[at + 1] == other[at]
        && one[at + 2..] == other[at + 2..]
}
