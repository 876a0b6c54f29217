#![doc = include_str!("../README.md")]
#![deny(missing_docs)]
#![deny(unsafe_op_in_unsafe_fn)]

mod builder;
mod calls;
mod error;
mod iter;
mod sets;
mod shape;
pub mod sys;
mod table;
mod table_mut;

pub use builder::{Builder, DEFAULT_PERCENT};
pub use error::{Error, ErrorAt};
pub use iter::Iter;
pub use shape::*;
pub use table::{Sizes, Table, Walked, DEFAULT_GROUPS};
pub use table_mut::{bytes_needed, empty_table, insert_growing, TableMut};

/// Returns the version of the linked archive as one number: 1.2.3 is 10203.
pub fn version() -> u32 {
    sys::odht_version()
}

/// Returns `count` zeros, or [`Error::Memory`] if the allocation fails.
fn zeros<T: Copy + Default>(count: usize) -> Result<Vec<T>, Error> {
    let mut all = Vec::new();
    all.try_reserve_exact(count).map_err(|_| Error::Memory)?;
    all.resize(count, T::default());
    Ok(all)
}
