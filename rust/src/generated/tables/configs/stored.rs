// Generated from crates/odht/src/configs/stored.rt by make generate.
//! What the keys and values of ready configurations are, and how they are stored: integers
//! little-endian, and bytes as they are.

use crate::generated::tables::bytes::ByteArray;
use crate::generated::tables::hash::{FxHashFn, HashFn, UnHashFn, Xxh64HashFn};

/// A type that is stored as a fixed number of bytes: an integer, little-endian, bytes, or `()`,
/// which has none.
pub trait FixedBytes {
    type Bytes: ByteArray;

    /// Its bytes.
    fn to_bytes(&self) -> Self::Bytes;

    /// The value that these bytes decode to.
    fn of_bytes(bytes: &Self::Bytes) -> Self;

    /// The law that its bytes decode to it. The call has no effect.
    fn kept(&self);
}

impl FixedBytes for u32 {
    type Bytes = [u8; 4];

    #[inline(always)]
    fn to_bytes(&self) -> [u8; 4] {
        self.to_le_bytes()
    }

    #[inline(always)]
    fn of_bytes(bytes: &[u8; 4]) -> u32 {
        u32::from_le_bytes(*bytes)
    }

    fn kept(&self) {
        let _number = *self;
    }
}

impl FixedBytes for u64 {
    type Bytes = [u8; 8];

    #[inline(always)]
    fn to_bytes(&self) -> [u8; 8] {
        self.to_le_bytes()
    }

    #[inline(always)]
    fn of_bytes(bytes: &[u8; 8]) -> u64 {
        u64::from_le_bytes(*bytes)
    }

    fn kept(&self) {
        let _number = *self;
    }
}

impl FixedBytes for () {
    type Bytes = [u8; 0];

    #[inline(always)]
    fn to_bytes(&self) -> [u8; 0] {
        []
    }

    #[inline(always)]
    fn of_bytes(_bytes: &[u8; 0]) {}

    fn kept(&self) {}
}

impl<const N: usize> FixedBytes for [u8; N] {
    type Bytes = [u8; N];

    #[inline(always)]
    fn to_bytes(&self) -> [u8; N] {
        *self
    }

    #[inline(always)]
    fn of_bytes(bytes: &[u8; N]) -> [u8; N] {
        *bytes
    }

    fn kept(&self) {}
}

/// A type whose bytes are no more than an entry takes: at most 255.
pub trait Fits: FixedBytes {}

impl Fits for () {}

impl Fits for u32 {}

impl Fits for u64 {}

impl Fits for [u8; 8] {}

impl Fits for [u8; 16] {}

impl Fits for [u8; 20] {}

impl Fits for [u8; 32] {}

/// A type whose bytes are long enough for a hash function: `UnHashFn` takes the last four, which
/// should vary.
pub trait HashedBy<H: HashFn>: Fits {}

impl<T: Fits> HashedBy<FxHashFn> for T {}

impl<T: Fits> HashedBy<Xxh64HashFn> for T {}

impl HashedBy<UnHashFn> for u32 {}

impl HashedBy<UnHashFn> for u64 {}

impl HashedBy<UnHashFn> for [u8; 8] {}

impl HashedBy<UnHashFn> for [u8; 16] {}

impl HashedBy<UnHashFn> for [u8; 20] {}

impl HashedBy<UnHashFn> for [u8; 32] {}
