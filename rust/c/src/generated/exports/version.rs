// Generated from crates/odht_c/src/version.rt by make generate.
//! The version of the library.

// Version 0.4.0, as in packaging/VERSION and include/odht.h.
const VERSION: u32 = 400;

/// The version of this library: 10000 for each major number, 100 for each minor one, and the
/// patch. A program can compare it with `ODHT_VERSION`, that of the header it was compiled with.
#[unsafe(no_mangle)]
pub unsafe extern "C" fn odht_version() -> u32 {
    VERSION
}
