//! `odht`, the program for table files: the proved source with its contracts taken out, compiled by rustc. It is not
//! the machine code that was proved, and `odht --version` says so.
//!
//! `odht_tool` and the crates `odht_tool_*` are erased as those below them are, which are the files of the crate `odht`.

#![deny(unsafe_code, unsafe_op_in_unsafe_fn)]

extern crate alloc;

#[macro_use]
#[allow(dead_code, unused_imports)]
#[path = "../../src/shim/mod.rs"]
mod shim;

mod host;

// The modules of the crate `odht`. They are whole, also where nothing here uses them.
#[allow(dead_code, unused_imports, unused_variables)]
#[allow(
    clippy::borrow_deref_ref,
    clippy::collapsible_if,
    clippy::manual_find,
    clippy::manual_map,
    clippy::manual_range_contains,
    clippy::module_inception,
    clippy::needless_range_loop,
    clippy::question_mark,
    clippy::too_many_arguments
)]
#[cfg_attr(feature = "checked", forbid(unsafe_code))]
#[cfg_attr(not(feature = "checked"), allow(unsafe_code))]
#[path = "../../src/generated"]
mod library {
    pub mod base;
    pub mod header;
    pub mod raw;
    pub mod tables;
}

// The program, written as it could be proved. Its crates are modules of one crate here, so a macro of one names paths of
// this crate.
#[allow(dead_code, unused_imports, unused_variables, clippy::complexity, clippy::style)]
#[allow(clippy::crate_in_macro_def)]
#[forbid(unsafe_code)]
mod generated {
    pub use crate::library::{base, header, raw, tables};
    pub mod core;
    pub mod reads;
    pub mod tool;
    pub mod tool_tables;
    pub mod writes;
}

fn main() -> std::process::ExitCode {
    generated::tool::main(host::rt::HostRuntime)
}

#[cfg(not(unix))]
compile_error!("the program odht is for Unix; the crate odht is for every 64-bit platform");

const _: () = assert!(usize::BITS == 64, "odht is for targets whose `usize` has 64 bits");
