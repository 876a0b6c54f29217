// Generated from crates/odht_raw/src/memory_layout.rt by make generate.
//! The bytes of a table: the header, the entries, and the control bytes with their mirror.
//!
//! Offsets and lengths are those of docs/FORMAT.md, "Layout".

mod allocation;
mod check;
mod inserts;
mod new_tables;
mod opening;

pub use crate::generated::header::header::{
    is_accepted, write_header, Header, HEADER_SIZE, LEAST_FACTOR,
};
pub use crate::generated::header::sizes::{bytes_needed, entry_at, layout_for};
pub use crate::generated::raw::raw_table::{Entries, EntryMetadata};
pub(crate) use allocation::prove_bytes;
pub use allocation::Allocation;
pub use check::{
    check_all, check_all_within, check_dynamic, check_dynamic_within, check_parts, DEFAULT_GROUPS,
};
pub use inserts::{insert_dynamic, insert_dynamic_into, insert_items_dynamic, insert_items_in};
pub use new_tables::{allocate, clear_entries, init_in_place, init_parts, write_empty};
pub use opening::{
    check_by_header, check_opening, check_opening_in, dynamic_parts, dynamic_table_len, parts_in,
    stated_layout, table_len,
};
