//! What Rattle's std has and Rust's has not, as far as the program uses it: the system is an argument, and what asks
//! for memory may be refused it. The modules have the names that they have there. It is written by hand, and nothing in
//! it is proved.

pub mod env;
pub mod fs;
pub mod io;
pub mod lists;
pub mod os;
pub mod rt;
pub mod simd;
pub mod texts;
pub mod time;

/// What a source of Rattle has without a `use`, and the methods that `tools/erase` puts for others.
pub mod prelude {
    pub use super::io::BufReadCalls;
    pub use super::lists::{IteratorCalls, ListCalls};
    pub use super::rt::{AllocGlobal, HostRuntime};
    pub use std::fmt::Write as _;
    pub use std::io::Write as _;
}
