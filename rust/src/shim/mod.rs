//! What Rattle's std has and Rust's has not: lists whose memory may be refused, one vector of sixteen bytes, and index
//! expressions that need no check. It is written by hand, nothing in it is proved, and it has all of the unsafe code
//! except a call of it in `opened.rs`, and the public functions that are unsafe as the original's are.

#[macro_use]
pub(crate) mod index;
pub(crate) mod lanes;
mod memory;
pub(crate) mod slots;

pub use lanes::u8x16;
pub use memory::{collect, to_vec, with_capacity, zeroed_bytes, AllocError, Global};
