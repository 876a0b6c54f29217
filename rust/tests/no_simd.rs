//! Those of the tests in `all` that tests/rust.py runs with the feature `no_simd`. `cargo test` leaves this program out.

mod common;

mod properties;
mod vectors;
