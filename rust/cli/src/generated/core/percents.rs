// Generated from crates/odht_tool_core/src/percents.rt by make generate.
//! The load factor of a table that is made of another.

use crate::generated::base::load::Percent;
use crate::generated::core::numbers::nearest_percent;
use crate::generated::header::header::Header;
use crate::host::prelude::*;

/// The load factor of a table that is made of the table of these bytes: the one that is named, or
/// else that of the table.
pub fn new_percent(bytes: &[u8], named: Option<Percent>) -> Percent {
    match named {
        Some(percent) => percent,
        None => kept_percent(bytes),
    }
}

/// The percentage that the load factor of a table is nearest to, and at least 1.
pub fn kept_percent(bytes: &[u8]) -> Percent {
    let nearest = nearest_percent(Header::of(bytes).max_load_factor());
    Percent::new(nearest.max(1) as u8).unwrap()
}
