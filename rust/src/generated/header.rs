// Generated from crates/odht_header/src/lib.rt by make generate.
//! `odht_header`: the error type, configurations, and the header of a table. `odht_raw` has what
//! comes behind the header.

pub use crate::generated::base::{bytes, hash, load, swisstable_group_query};

pub mod config;
pub mod error;
pub mod header;
pub mod layout;
pub mod sizes;
