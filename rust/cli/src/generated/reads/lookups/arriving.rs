// Generated from crates/odht_tool_reads/src/lookups/arriving.rt by make generate.
//! Inputs of which the next line may have come, or not.

use crate::host::io::{BufReader, Read};
use crate::host::prelude::*;

/// An input whose lines come one after the other.
pub trait Arriving {
    /// Whether no further line has come whole, so that reading one may wait for it.
    fn is_waiting(&self) -> bool;
}

/// What has come is in the buffer.
impl<R: Read> Arriving for BufReader<R> {
    fn is_waiting(&self) -> bool {
        !self.buffer().contains(&b'\n')
    }
}
