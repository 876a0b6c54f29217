//! Those of the tests in `all` that tests/rust.py runs without the feature `std`. `cargo test` leaves this program out.

mod common;

mod interface;
mod question_mark;
mod worked_bytes;
