//! `libodht` with the calls of `include/odht.h`, where the kit that proves the library is not there: the proved source
//! with its contracts taken out, compiled by rustc. It is not the machine code that was proved.
//!
//! `odht_calls` and `odht_c` are erased as the crates below them are; those are the files of the crate `odht`.

extern crate alloc;

#[macro_use]
#[allow(dead_code)]
#[path = "../../src/shim/mod.rs"]
mod shim;

mod lists;

// The modules of the crate `odht`. They are whole, also where nothing here uses them.
#[allow(dead_code, unused_imports, unused_variables)]
#[allow(
    clippy::borrow_deref_ref,
    clippy::collapsible_if,
    clippy::manual_find,
    clippy::manual_map,
    clippy::manual_range_contains,
    clippy::module_inception,
    clippy::needless_range_loop,
    clippy::question_mark,
    clippy::too_many_arguments
)]
#[path = "../../src/generated"]
mod library {
    pub mod base;
    pub mod header;
    pub mod raw;
    pub mod tables;
}

// The exports, unsafe since C calls them.
#[allow(dead_code, unused_imports, unused_variables, improper_ctypes_definitions, clippy::all)]
mod generated {
    pub use crate::library::{base, header, raw, tables};
    pub mod calls;
    pub mod exports;
}

const _: () = assert!(usize::BITS == 64, "odht is for targets whose `usize` has 64 bits");
