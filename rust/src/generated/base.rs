// Generated from crates/odht_base/src/lib.rt by make generate.
//! The base of `odht`: load factors, hashes, byte arrays and stores of bytes.
//!
//! The definitions that all contracts cite are in `specs/`, from numbers up to tables and their
//! bytes.

pub mod bytes;
pub mod hash;
pub mod load;
pub mod swisstable_group_query;
