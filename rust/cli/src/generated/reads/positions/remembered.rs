// Generated from crates/odht_tool_reads/src/positions/remembered.rt by make generate.
//! A source of bytes, of which some were read before.

use crate::generated::tables::read_at::{ReadAt, ReadError};
use crate::host::prelude::*;

/// A source, and its bytes from an offset on, as they were read. What lies among them is not read
/// again.
pub struct Remembered<'a, S: ReadAt> {
    pub(super) source: S,
    pub(super) at: u64,
    pub(super) bytes: &'a [u8],
}

impl<'a, S: ReadAt> Remembered<'a, S> {
    // What is remembered from an offset on: nothing where that is not among the bytes.
    fn known_from(&self, offset: u64) -> &'a [u8] {
        let bytes = self.bytes;
        match offset.checked_sub(self.at) {
            Some(skipped) if skipped < bytes.len() as u64 => &bytes[skipped as usize..],
            _ => &bytes[bytes.len()..],
        }
    }
}

impl<'a, S: ReadAt> ReadAt for Remembered<'a, S> {
    fn read_at(&self, offset: u64, out: &mut [u8]) -> Result<usize, ReadError> {
        let known = self.known_from(offset);
        if known.is_empty() {
            return self.source.read_at(offset, out);
        }
        let few = out.len().min(known.len());
        out[..few].copy_from_slice(&known[..few]);
        Ok(few)
    }
}
