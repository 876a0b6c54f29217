// Generated from crates/odht_c/src/lib.rt by make generate.
//! The table for programs in C, and in any language that calls C.

mod any;
mod generated;
mod version;
