// Generated from crates/odht_base/src/bytes.rt by make generate.
//! Byte arrays of a fixed length, which keys and values are encoded to, and stores of bytes, which
//! hold tables.

mod arrays;
mod stores;

pub use arrays::{
    is_same_bytes, is_same_four, is_same_word, is_zeros, read_u32, read_u64, ByteArray,
};
pub use stores::{write_slice, Borrowed, BorrowedMut, ByteStore, ByteStoreMut, OwnedBytes};
