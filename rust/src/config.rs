//! Configurations, and their adapters to the traits of the proved library.

use crate::generated::base::{bytes, hash};
use crate::generated::header::config;
use std::marker::PhantomData;

/// A type that keys and values are encoded to: `[u8; N]`. The trait is sealed, so no other type can
/// implement it.
pub trait ByteArray: bytes::ByteArray {}

impl<const N: usize> ByteArray for [u8; N] {}

/// Describes a table: the types of its keys and values, their encodings, and the hash function of
/// encoded keys.
///
/// All encoded keys have the same length, at most 255 bytes, and so have all encoded values. An
/// encoding must depend only on the key or the value: every call must return the same bytes, on
/// every platform. The proofs rely on that. If a configuration violates it, lookups may miss keys
/// that were inserted, and opening the table's bytes may return an error. Nothing worse happens.
///
/// If one of the functions panics, the table keeps what was inserted before.
///
/// Any bytes must decode to a key or a value, since a table may come from an untrusted source.
///
/// [`configs`](crate::configs) contains ready configurations, and [`config!`](crate::config!)
/// writes one in a line. By hand, it is written like this:
///
/// ```
/// use odht::{Config, HashTableOwned, Xxh64HashFn};
///
/// /// From points to their colours.
/// struct Colours;
///
/// impl Config for Colours {
///     type Key = (u16, u16);
///     type Value = [u8; 3];
///     type EncodedKey = [u8; 4];
///     type EncodedValue = [u8; 3];
///     type H = Xxh64HashFn;
///
///     fn encode_key(&(x, y): &(u16, u16)) -> [u8; 4] {
///         (u32::from(x) << 16 | u32::from(y)).to_le_bytes()
///     }
///     fn encode_value(v: &[u8; 3]) -> [u8; 3] {
///         *v
///     }
///     fn decode_key(k: &[u8; 4]) -> (u16, u16) {
///         let both = u32::from_le_bytes(*k);
///         ((both >> 16) as u16, both as u16)
///     }
///     fn decode_value(v: &[u8; 3]) -> [u8; 3] {
///         *v
///     }
/// }
///
/// let mut table = HashTableOwned::<Colours>::default();
/// table.insert(&(7, 9), &[255, 128, 0]);
/// assert_eq!(table.get(&(7, 9)), Some([255, 128, 0]));
/// ```
pub trait Config {
    /// The type of keys, before they are encoded.
    type Key;

    /// The type of values, before they are encoded.
    type Value;

    /// The type of encoded keys: at most 255 bytes, and at least [`HashFn::MIN_LEN`] bytes.
    type EncodedKey: ByteArray;

    /// The type of encoded values: at most 255 bytes.
    type EncodedValue: ByteArray;

    /// The hash function of encoded keys. The bytes of a table do not record it.
    type H: HashFn;

    /// Encodes a key.
    fn encode_key(k: &Self::Key) -> Self::EncodedKey;

    /// Encodes a value.
    fn encode_value(v: &Self::Value) -> Self::EncodedValue;

    /// Decodes a key. The function must return a key for any bytes.
    fn decode_key(k: &Self::EncodedKey) -> Self::Key;

    /// Decodes a value. The function must return a value for any bytes.
    fn decode_value(v: &Self::EncodedValue) -> Self::Value;
}

/// A hash function of encoded keys: [`FxHashFn`](crate::FxHashFn), [`UnHashFn`](crate::UnHashFn),
/// [`Xxh64HashFn`](crate::Xxh64HashFn), or one of your own. [`config!`](crate::config!) lists which one fits which keys.
///
/// The seven highest bits of a hash become the tag of the slot, and the lowest bits select the slot
/// where a search begins. All of these bits should vary between keys.
///
/// ```
/// use odht::HashFn;
///
/// /// The hash function FNV-1a.
/// #[derive(PartialEq, Eq)]
/// struct Fnv;
///
/// impl HashFn for Fnv {
///     fn hash(bytes: &[u8]) -> u32 {
///         bytes.iter().fold(0x811c_9dc5, |hash, byte| (hash ^ u32::from(*byte)).wrapping_mul(0x0100_0193))
///     }
/// }
///
/// assert_eq!(Fnv::hash(b"a"), 0xe40c_292c);
/// ```
pub trait HashFn: Eq {
    /// The minimum number of bytes that the function needs. A program that uses a configuration
    /// with shorter encoded keys does not compile.
    const MIN_LEN: usize = 0;

    /// Hashes `bytes`, whose length is at least [`MIN_LEN`](HashFn::MIN_LEN).
    fn hash(bytes: &[u8]) -> u32;
}

impl HashFn for hash::FxHashFn {
    #[inline]
    fn hash(bytes: &[u8]) -> u32 {
        <Self as hash::HashFn>::hash(bytes)
    }
}

impl HashFn for hash::UnHashFn {
    const MIN_LEN: usize = <Self as hash::HashFn>::MIN_LEN;

    /// Returns the last four bytes.
    ///
    /// # Panics
    ///
    /// Panics if there are fewer than four bytes.
    #[inline]
    #[track_caller]
    fn hash(bytes: &[u8]) -> u32 {
        assert!(bytes.len() >= Self::MIN_LEN, "UnHashFn needs four bytes");
        <Self as hash::HashFn>::hash(bytes)
    }
}

impl HashFn for hash::Xxh64HashFn {
    #[inline(always)]
    fn hash(bytes: &[u8]) -> u32 {
        <Self as hash::HashFn>::hash(bytes)
    }
}

/// Adapts a hash function to the trait of the proved library.
#[derive(PartialEq, Eq)]
pub struct Hash<H>(PhantomData<H>);

impl<H: HashFn> hash::HashFn for Hash<H> {
    const MIN_LEN: usize = H::MIN_LEN;

    // A dump writes `hash_name` instead.
    const NAME: &'static str = "";

    // The path by which users name the type. The hash functions of this crate are declared in
    // private modules.
    fn hash_name() -> &'static str {
        let name = std::any::type_name::<H>();
        if name == std::any::type_name::<hash::FxHashFn>() {
            return "odht::FxHashFn";
        }
        if name == std::any::type_name::<hash::UnHashFn>() {
            return "odht::UnHashFn";
        }
        if name == std::any::type_name::<hash::Xxh64HashFn>() {
            return "odht::Xxh64HashFn";
        }
        name
    }

    #[inline(always)]
    fn hash(bytes: &[u8]) -> u32 {
        H::hash(bytes)
    }
}

/// Adapts a configuration to the trait of the proved library. It has size 0, and is `Send` and
/// `Sync` for every `C`.
pub struct Proved<C>(PhantomData<fn() -> C>);

impl<C: Config> Proved<C> {
    /// The conditions on lengths that the proofs require of a configuration. They are checked when
    /// a table of it is compiled.
    pub const FITS: () = {
        let key = <C::EncodedKey as bytes::ByteArray>::LEN;
        let value = <C::EncodedValue as bytes::ByteArray>::LEN;
        assert!(key <= 255, "an encoded key has at most 255 bytes");
        assert!(value <= 255, "an encoded value has at most 255 bytes");
        assert!(C::H::MIN_LEN <= key, "the hash function needs more bytes than an encoded key has");
    };
}

impl<C: Config> config::Config for Proved<C> {
    type Key = C::Key;
    type Value = C::Value;
    type EncodedKey = C::EncodedKey;
    type EncodedValue = C::EncodedValue;
    type H = Hash<C::H>;

    #[inline(always)]
    fn encode_key(k: &C::Key) -> C::EncodedKey {
        C::encode_key(k)
    }

    #[inline(always)]
    fn encode_value(v: &C::Value) -> C::EncodedValue {
        C::encode_value(v)
    }

    #[inline(always)]
    fn decode_key(k: &C::EncodedKey) -> C::Key {
        C::decode_key(k)
    }

    #[inline(always)]
    fn decode_value(v: &C::EncodedValue) -> C::Value {
        C::decode_value(v)
    }
}
