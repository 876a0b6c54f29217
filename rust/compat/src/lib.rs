//! Code as it is written for odht 0.3.1: a first table, the map in which rustc keeps the hashes of its definitions,
//! and tables in place. It compiles against that crate and against this one, where the line of the dependency alone
//! differs. What the two do differently, by docs/DIFFERENCES.md of the repository, is not met here.

pub mod definitions;
pub mod first_table;
pub mod in_place;
