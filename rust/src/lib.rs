//! [docs/FORMAT.md]: documents::format
//! [docs/DIFFERENCES.md]: documents::differences
//! [CHANGELOG.md]: documents::changes
//! [examples]: documents::examples
#![doc = include_str!("../README.md")]
#![deny(unsafe_code, missing_docs)]
#![cfg_attr(not(any(feature = "std", test)), no_std)]

extern crate alloc;
// Without std, `std::` means `core::`. Items that `core` lacks are named by `alloc::`.
#[cfg(not(any(feature = "std", test)))]
extern crate core as std;

#[macro_use]
mod shim;

mod config;
pub mod configs;
pub mod dynamic;
mod encoded;
mod fixed;
mod iter;
mod opened;
mod owned;
mod sizes;
mod store;
#[cfg(test)]
mod tests;
mod view;

// The source of the proved library without its contracts. `make generate` in the repository of this
// crate generates it. It is complete, so this crate does not use all of it. The fields of its
// errors are documented at the type. Its code has the form that could be proved, hence the lints
// that are allowed.
#[allow(dead_code, unused_imports, unused_variables, missing_docs)]
#[allow(
    clippy::borrow_deref_ref,
    clippy::collapsible_if,
    clippy::manual_find,
    clippy::manual_map,
    clippy::manual_range_contains,
    clippy::module_inception,
    clippy::needless_range_loop,
    clippy::question_mark,
    clippy::too_many_arguments
)]
#[cfg_attr(feature = "checked", forbid(unsafe_code))]
#[cfg_attr(not(feature = "checked"), allow(unsafe_code))]
mod generated {
    pub mod base;
    pub mod header;
    pub mod raw;
    pub mod tables;
}

pub use config::{ByteArray, Config, HashFn};
pub use fixed::Fixed;
pub use generated::base::hash::{FxHashFn, UnHashFn, Xxh64HashFn};
pub use generated::header::error::{Error, Part};
pub use generated::raw::memory_layout::DEFAULT_GROUPS;
pub use iter::{IntoIter, IntoKeys, IntoValues, Iter, Keys, Slots, Values};
pub use owned::HashTableOwned;
pub use sizes::{bytes_needed, check_all, check_all_within, table_len, try_bytes_needed};
pub use store::BytesOf;
pub use view::HashTable;

/// The documents of this package, as pages. These modules contain no items.
#[cfg(all(doc, not(doctest)))]
#[allow(rustdoc::all)]
pub mod documents {
    #[doc = include_str!("../docs/FORMAT.md")]
    pub mod format {}

    /// [FORMAT.md]: crate::documents::format
    #[doc = include_str!("../docs/DIFFERENCES.md")]
    pub mod differences {}

    /// [docs/DIFFERENCES.md]: crate::documents::differences
    #[doc = include_str!("../CHANGELOG.md")]
    pub mod changes {}

    #[doc = include_str!("../examples/README.md")]
    pub mod examples {}
}

// The proofs assume that a `usize` has 64 bits.
const _: () = assert!(usize::BITS == 64, "odht is for targets whose `usize` has 64 bits");
