// Generated from crates/odht/src/lib.rt by make generate.
//! `odht`: a hash table that is used in the form in which it is stored.
//!
//! [`HashTableOwned`] owns its bytes and grows; [`HashTable`] is a view of bytes of any kind, and
//! does not grow. Both have the bytes of docs/FORMAT.md.

pub use crate::generated::base::hash::{FxHashFn, HashFn, UnHashFn, Xxh64HashFn};
pub use crate::generated::base::{bytes, hash, load, swisstable_group_query};
pub use crate::generated::raw::config::Config;
pub use crate::generated::raw::{config, error, items, layout, memory_layout, raw_table, read_at};
pub use hash_table::{bytes_needed, HashTable};
pub use hash_table_owned::HashTableOwned;
pub use iter::{Iter, Slots};

pub mod configs;
pub mod dynamic;
mod equality;
pub mod growth;
mod hash_table;
mod hash_table_owned;
mod insert_order;
mod iter;
pub mod lookups;
mod new_tables;
mod prefix;
