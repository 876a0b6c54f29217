// Generated from crates/odht_tool_tables/src/generated/shapes.rt by make generate.
//! The configuration of each shape. Generated from lists/shapes.txt by make generate.

use crate::host::prelude::*;

/// A configuration as the kind of [`for_shape`](crate::generated::tool_tables::for_shape).
pub type Itself<C> = C;

/// Calls a function for a shape. Its first type parameter is of a kind, such as `HashTableOwned` or
/// [`Itself`], and of the configuration of the shape:
/// `for_shape!(shape, Kind, function[more, parameters](arguments))`.
#[macro_export]
macro_rules! for_shape {
    ($shape:expr, $kind:ident, $function:ident[$($more:ty),*]($($argument:expr),*)) => {
        match $shape {
            Shape::U32ToU32 => {
                $function::<$kind<crate::generated::tables::configs::U32ToU32>, $($more),*>($($argument),*)
            }
            Shape::DirectU32ToU32 => {
                $function::<$kind<crate::generated::tables::configs::DirectU32ToU32>, $($more),*>($($argument),*)
            }
            Shape::U64ToU32 => {
                $function::<$kind<crate::generated::tables::configs::U64ToU32>, $($more),*>($($argument),*)
            }
            Shape::U64ToU64 => {
                $function::<$kind<crate::generated::tables::configs::U64ToU64>, $($more),*>($($argument),*)
            }
            Shape::U64Set => {
                $function::<$kind<crate::generated::tables::configs::U64Set>, $($more),*>($($argument),*)
            }
            Shape::Bytes8ToU32 => {
                $function::<$kind<crate::generated::tables::configs::Bytes8ToU32>, $($more),*>($($argument),*)
            }
            Shape::Bytes8ToU64 => {
                $function::<$kind<crate::generated::tables::configs::Bytes8ToU64>, $($more),*>($($argument),*)
            }
            Shape::Bytes16ToU32 => {
                $function::<$kind<crate::generated::tables::configs::Bytes16ToU32>, $($more),*>($($argument),*)
            }
            Shape::Bytes16ToU64 => {
                $function::<$kind<crate::generated::tables::configs::Bytes16ToU64>, $($more),*>($($argument),*)
            }
            Shape::Bytes20ToU64 => {
                $function::<$kind<crate::generated::tables::configs::Bytes20ToU64>, $($more),*>($($argument),*)
            }
            Shape::Bytes32ToU64 => {
                $function::<$kind<crate::generated::tables::configs::Bytes32ToU64>, $($more),*>($($argument),*)
            }
            Shape::Bytes16ToBytes16 => {
                $function::<$kind<crate::generated::tables::configs::Bytes16ToBytes16>, $($more),*>($($argument),*)
            }
            Shape::Bytes32ToBytes32 => {
                $function::<$kind<crate::generated::tables::configs::Bytes32ToBytes32>, $($more),*>($($argument),*)
            }
            Shape::Bytes8Set => {
                $function::<$kind<crate::generated::tables::configs::Bytes8Set>, $($more),*>($($argument),*)
            }
            Shape::Bytes16Set => {
                $function::<$kind<crate::generated::tables::configs::Bytes16Set>, $($more),*>($($argument),*)
            }
            Shape::Bytes20Set => {
                $function::<$kind<crate::generated::tables::configs::Bytes20Set>, $($more),*>($($argument),*)
            }
            Shape::Bytes32Set => {
                $function::<$kind<crate::generated::tables::configs::Bytes32Set>, $($more),*>($($argument),*)
            }
        }
    };
}
