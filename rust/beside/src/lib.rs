//! What the crate is compared with: the calls of the C library, and the original crate. tests/ has the comparisons.
//!
//! build.rs says where both are looked for.

#[cfg(c_library)]
pub mod c_library;
#[cfg(original)]
pub extern crate original;
#[path = "../../tests/common/random.rs"]
pub mod random;

/// How many operations a comparison makes: the number in ODHT_OPERATIONS, or else this.
pub fn operations(otherwise: usize) -> usize {
    let named = std::env::var("ODHT_OPERATIONS").ok();
    named.map_or(otherwise, |number| number.parse().expect("ODHT_OPERATIONS is a number"))
}
