//! The tests of public calls, as one program: cargo compiles and links what they share once. Cargo.toml lists the other
//! programs. `long` has the tests that are optimized.

mod common;

mod answers;
mod bounds;
mod bytes_of;
mod carried;
mod comparisons;
mod config_macro;
mod dynamic_owned;
mod encoded;
mod file_tables;
mod fixed_types;
mod hostile;
mod interface;
mod large;
mod map_calls;
mod map_changes;
mod map_habits;
mod names;
mod prefixes;
mod properties;
mod question_mark;
mod rewritten;
mod shapes;
mod stores;
mod toolchain;
mod unchecked;
mod user_code;
mod vectors;
mod worked_bytes;
