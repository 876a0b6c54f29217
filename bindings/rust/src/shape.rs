//! The shapes of tables: their types of keys and values.

use std::fmt::Debug;
use std::hash::Hash;

use crate::calls::Calls;

/// The types of a table's keys and values. Only types of this crate implement it.
///
/// Numbers are stored in little-endian order, and hashed by `FxHashFn`. Keys of bytes are already hashes, for example
/// of file contents. Their last four bytes must vary, because only these determine the probe order (`UnHashFn`).
pub trait Shape: sealed::Sealed + Copy + Debug + Default + Eq + Hash + Send + Sync + 'static {
    /// The type of the keys.
    type Key: Copy + Debug + Default + Eq + Ord + Hash + Send + Sync + 'static;

    /// The type of the values: `()` for a set.
    type Value: Copy + Debug + Default + Eq + Ord + Hash + Send + Sync + 'static;

    /// The calls of the archive.
    #[doc(hidden)]
    type Calls: Calls<Key = Self::Key, Value = Self::Value>;
}

mod sealed {
    pub trait Sealed {}
}

include!("generated/shapes.rs");

macro_rules! declare {
    ($(
        $module:ident, $shape:ident, $config:ident:
        $key:ty as $key_kind:ident => $value:ty $(as $value_kind:ident)?, $words:literal;
    )*) => { $(
        #[doc = concat!($words, ".")]
        #[derive(Clone, Copy, Debug, Default, PartialEq, Eq, Hash)]
        pub struct $shape;

        impl sealed::Sealed for $shape {}

        impl Shape for $shape {
            type Key = $key;
            type Value = $value;
            type Calls = $shape;
        }
    )* };
}

each_shape!(declare);
