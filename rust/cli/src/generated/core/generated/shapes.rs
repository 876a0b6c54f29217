// Generated from crates/odht_tool_core/src/generated/shapes.rt by make generate.
//! The ready shapes. Generated from lists/shapes.txt by make generate.

use crate::generated::core::shapes::{Hash, Part};
use crate::host::prelude::*;

/// A ready shape, by the name of its configuration.
#[derive(Clone, Copy)]
pub enum Shape {
    /// From 32-bit numbers to 32-bit numbers.
    U32ToU32,
    /// From 32-bit numbers that are their own hashes to 32-bit numbers.
    DirectU32ToU32,
    /// From 64-bit numbers to 32-bit numbers.
    U64ToU32,
    /// From 64-bit numbers to 64-bit numbers.
    U64ToU64,
    /// Of 64-bit numbers, a set.
    U64Set,
    /// From hashes of 8 bytes to 32-bit numbers.
    Bytes8ToU32,
    /// From hashes of 8 bytes to 64-bit numbers.
    Bytes8ToU64,
    /// From hashes of 16 bytes to 32-bit numbers.
    Bytes16ToU32,
    /// From hashes of 16 bytes to 64-bit numbers.
    Bytes16ToU64,
    /// From hashes of 20 bytes to 64-bit numbers.
    Bytes20ToU64,
    /// From hashes of 32 bytes to 64-bit numbers.
    Bytes32ToU64,
    /// From hashes of 16 bytes to hashes of 16 bytes.
    Bytes16ToBytes16,
    /// From hashes of 32 bytes to hashes of 32 bytes.
    Bytes32ToBytes32,
    /// Of hashes of 8 bytes, a set.
    Bytes8Set,
    /// Of hashes of 16 bytes, a set.
    Bytes16Set,
    /// Of hashes of 20 bytes, a set.
    Bytes20Set,
    /// Of hashes of 32 bytes, a set.
    Bytes32Set,
}

/// The ready shapes. Of two that a file fits the first is taken.
pub(crate) const SHAPES: [Shape; 17] = [
    Shape::U32ToU32,
    Shape::DirectU32ToU32,
    Shape::U64ToU32,
    Shape::U64ToU64,
    Shape::U64Set,
    Shape::Bytes8ToU32,
    Shape::Bytes8ToU64,
    Shape::Bytes16ToU32,
    Shape::Bytes16ToU64,
    Shape::Bytes20ToU64,
    Shape::Bytes32ToU64,
    Shape::Bytes16ToBytes16,
    Shape::Bytes32ToBytes32,
    Shape::Bytes8Set,
    Shape::Bytes16Set,
    Shape::Bytes20Set,
    Shape::Bytes32Set,
];

impl Shape {
    /// The type of its keys.
    pub(crate) fn key(self) -> Part {
        match self {
            Shape::U32ToU32 => Part::U32,
            Shape::DirectU32ToU32 => Part::U32,
            Shape::U64ToU32 => Part::U64,
            Shape::U64ToU64 => Part::U64,
            Shape::U64Set => Part::U64,
            Shape::Bytes8ToU32 => Part::Bytes(8),
            Shape::Bytes8ToU64 => Part::Bytes(8),
            Shape::Bytes16ToU32 => Part::Bytes(16),
            Shape::Bytes16ToU64 => Part::Bytes(16),
            Shape::Bytes20ToU64 => Part::Bytes(20),
            Shape::Bytes32ToU64 => Part::Bytes(32),
            Shape::Bytes16ToBytes16 => Part::Bytes(16),
            Shape::Bytes32ToBytes32 => Part::Bytes(32),
            Shape::Bytes8Set => Part::Bytes(8),
            Shape::Bytes16Set => Part::Bytes(16),
            Shape::Bytes20Set => Part::Bytes(20),
            Shape::Bytes32Set => Part::Bytes(32),
        }
    }

    /// The type of its values.
    pub(crate) fn value(self) -> Part {
        match self {
            Shape::U32ToU32 => Part::U32,
            Shape::DirectU32ToU32 => Part::U32,
            Shape::U64ToU32 => Part::U32,
            Shape::U64ToU64 => Part::U64,
            Shape::U64Set => Part::Nothing,
            Shape::Bytes8ToU32 => Part::U32,
            Shape::Bytes8ToU64 => Part::U64,
            Shape::Bytes16ToU32 => Part::U32,
            Shape::Bytes16ToU64 => Part::U64,
            Shape::Bytes20ToU64 => Part::U64,
            Shape::Bytes32ToU64 => Part::U64,
            Shape::Bytes16ToBytes16 => Part::Bytes(16),
            Shape::Bytes32ToBytes32 => Part::Bytes(32),
            Shape::Bytes8Set => Part::Nothing,
            Shape::Bytes16Set => Part::Nothing,
            Shape::Bytes20Set => Part::Nothing,
            Shape::Bytes32Set => Part::Nothing,
        }
    }

    /// Its hash function.
    pub(crate) fn hash(self) -> Hash {
        match self {
            Shape::U32ToU32 => Hash::Fx,
            Shape::DirectU32ToU32 => Hash::Unhash,
            Shape::U64ToU32 => Hash::Fx,
            Shape::U64ToU64 => Hash::Fx,
            Shape::U64Set => Hash::Fx,
            Shape::Bytes8ToU32 => Hash::Unhash,
            Shape::Bytes8ToU64 => Hash::Unhash,
            Shape::Bytes16ToU32 => Hash::Unhash,
            Shape::Bytes16ToU64 => Hash::Unhash,
            Shape::Bytes20ToU64 => Hash::Unhash,
            Shape::Bytes32ToU64 => Hash::Unhash,
            Shape::Bytes16ToBytes16 => Hash::Unhash,
            Shape::Bytes32ToBytes32 => Hash::Unhash,
            Shape::Bytes8Set => Hash::Unhash,
            Shape::Bytes16Set => Hash::Unhash,
            Shape::Bytes20Set => Hash::Unhash,
            Shape::Bytes32Set => Hash::Unhash,
        }
    }
}

/// The lines of the ready shapes in the help of `build`.
pub(crate) const READY: &str = "\
ready shapes, by --key, --value and --hash; the first that fits is taken:
    u32    u32    fx
    u32    u32    unhash
    u64    u32    fx
    u64    u64    fx
    u64    none   fx
    hex8   u32    unhash
    hex8   u64    unhash
    hex16  u32    unhash
    hex16  u64    unhash
    hex20  u64    unhash
    hex32  u64    unhash
    hex16  hex16  unhash
    hex32  hex32  unhash
    hex8   none   unhash
    hex16  none   unhash
    hex20  none   unhash
    hex32  none   unhash
";
