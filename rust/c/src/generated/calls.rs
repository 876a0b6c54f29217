// Generated from crates/odht_calls/src/lib.rt by make generate.
//! The calls for C, for every configuration: what each returns, and what it leaves in the arrays
//! of its caller. The exports of each shape of table, in `odht_c`, hand on to them.

pub mod any;
pub mod build;
pub mod places;
pub mod read;
pub mod status;
pub mod view;
pub mod write;
