// Generated from crates/odht_header/src/config.rt by make generate.
//! Configurations: the key and value types of a table, their encodings and the hash function.

use crate::generated::header::bytes::ByteArray;
use crate::generated::header::hash::HashFn;

/// The types of a table, and their encodings. All encoded keys have the same length, and so have
/// all encoded values. The encodings are the same on every platform.
///
/// In contracts, what each of the four functions returns is the ghost member of the same name.
pub trait Config {
    /// The type of keys, before they are encoded.
    type Key;

    /// The type of values, before they are encoded.
    type Value;

    /// The type of encoded keys: at most 255 bytes, and at least the `MIN_LEN` of the hash
    /// function.
    type EncodedKey: ByteArray;

    /// The type of encoded values: at most 255 bytes.
    type EncodedValue: ByteArray;

    /// The hash function of encoded keys. The bytes of a table do not record it.
    type H: HashFn;

    /// Encodes a key.
    fn encode_key(k: &Self::Key) -> Self::EncodedKey;

    /// Encodes a value.
    fn encode_value(v: &Self::Value) -> Self::EncodedValue;

    /// Decodes a key. It must return a key for any bytes, since they may be untrusted.
    fn decode_key(k: &Self::EncodedKey) -> Self::Key;

    /// Decodes a value. It must return a value for any bytes, since they may be untrusted.
    fn decode_value(v: &Self::EncodedValue) -> Self::Value;
}
