// Generated from crates/odht_tool_tables/src/checks.rt by make generate.
//! The whole check of the bytes of a table of any shape.

use crate::generated::core::any::AnyShape;
use crate::generated::core::shapes::Hash;
use crate::generated::tables::error::Error;
use crate::generated::tables::{FxHashFn, UnHashFn, Xxh64HashFn};
use crate::generated::tool_tables::dynamic::{check_lengths, lengths_of};
use crate::host::prelude::*;

/// The first rule that the bytes break, as a table of this shape, the bound of searches among them
/// where there is one. Bytes without an error are valid.
pub fn check_any(shape: AnyShape, bytes: &[u8], bound: Option<usize>) -> Result<(), Error> {
    let layout = lengths_of(shape.key(), shape.value());
    match shape.hash() {
        Hash::Fx => check_lengths::<FxHashFn>(layout, bytes, bound),
        Hash::Unhash => check_lengths::<UnHashFn>(layout, bytes, bound),
        Hash::Xxh64 => check_lengths::<Xxh64HashFn>(layout, bytes, bound),
    }
}
