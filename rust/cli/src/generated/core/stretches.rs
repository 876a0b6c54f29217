// Generated from crates/odht_tool_core/src/stretches.rt by make generate.
//! How full a table is along its slots, which are cut into at most 64 stretches of equal length.

use crate::host::prelude::*;
use std::io::{self, Write};

/// How many stretches there are at most.
pub(crate) const STRETCHES: usize = 64;

/// How many slots a stretch has, of a table of that many.
pub(crate) fn stretch_len(slot_count: usize) -> usize {
    (slot_count / STRETCHES).max(1)
}

/// Writes how many slots of each stretch are occupied, of a table of that many slots, a sign for
/// each.
pub(crate) fn write_stretches<O: Write>(
    slot_count: usize,
    counts: &[usize],
    output: &mut O,
) -> io::Result<()> {
    write_signs(stretch_len(slot_count), counts, output)
}

// Writes the signs of stretches of that many slots.
fn write_signs<O: Write>(len: usize, counts: &[usize], output: &mut O) -> io::Result<()> {
    for count in counts {
        output.write_all(&[sign_of(len, *count)])?;
    }
    Ok(())
}

// The sign of a stretch: `.` where no slot is occupied, `9` where all are, else the digit of 1 and
// how many whole eighths of its slots are.
fn sign_of(len: usize, count: usize) -> u8 {
    if count == 0 {
        return b'.';
    }
    let eighths = count as u128 * 8 / len as u128;
    b'1' + eighths.min(8) as u8
}
