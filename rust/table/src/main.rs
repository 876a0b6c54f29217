//! `odht_table`, the script program: the proved source with its contracts taken out, compiled by rustc. It is not the
//! machine code that was proved. `make run` uses it on a machine without the kit of Rattle.
//!
//! Only `odht_table` is erased here. The crates below it and `host` are the files of the crates `odht` and `odht-cli`.

#![deny(unsafe_code, unsafe_op_in_unsafe_fn)]

extern crate alloc;

#[macro_use]
#[allow(dead_code, unused_imports)]
#[path = "../../src/shim/mod.rs"]
mod shim;

// The program `odht` uses more of it.
#[allow(dead_code, unused_imports)]
#[path = "../../cli/src/host/mod.rs"]
mod host;

// The modules of the crate `odht`. They are whole, also where nothing here uses them.
#[allow(dead_code, unused_imports, unused_variables, clippy::complexity, clippy::style)]
#[cfg_attr(feature = "checked", forbid(unsafe_code))]
#[cfg_attr(not(feature = "checked"), allow(unsafe_code))]
#[path = "../../src/generated"]
mod library {
    pub mod base;
    pub mod header;
    pub mod raw;
    pub mod tables;
}

// What the script program shares with the program `odht`.
#[allow(dead_code, unused_imports, unused_variables, clippy::complexity, clippy::style)]
#[forbid(unsafe_code)]
#[path = "../../cli/src/generated"]
mod shared {
    pub mod core;
}

// The program, written as it could be proved.
#[allow(dead_code, unused_imports, unused_variables, clippy::complexity, clippy::style)]
#[forbid(unsafe_code)]
mod generated {
    pub use crate::library::{base, header, raw, tables};
    pub use crate::shared::core;
    pub mod table;
}

fn main() -> std::process::ExitCode {
    generated::table::main(host::rt::HostRuntime)
}

#[cfg(not(unix))]
compile_error!("the script program is for Unix; the crate odht is for every 64-bit platform");

const _: () = assert!(usize::BITS == 64, "odht is for targets whose `usize` has 64 bits");
