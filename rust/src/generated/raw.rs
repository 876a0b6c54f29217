// Generated from crates/odht_raw/src/lib.rt by make generate.
//! `odht_raw`: the bytes of a table, its parts, and searches, inserts and walks in them. `odht`
//! has the tables over them.

pub use crate::generated::base::{bytes, hash, load, swisstable_group_query};
pub use crate::generated::header::{config, error, layout};

pub mod items;
pub mod memory_layout;
pub mod raw_table;
pub mod read_at;
