//! The tests that work long, as one program: tests/rust.py has cargo optimize them, because that takes less time than it
//! saves.

mod common;

mod dynamic;
mod dynamic_writes;
mod orders;
mod xxh64;
