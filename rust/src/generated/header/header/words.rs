// Generated from crates/odht_header/src/header/words.rt by make generate.
//! Whether a header fits, told by whole words and without its error.
//!
//! A call for C looks at the header each time. Nearly always it fits, and then no error has to be
//! found.

use super::{
    Header, CURRENT_FILE_FORMAT_VERSION, HEADER_SIZE, HEADER_TAG, METADATA_SIZE, TAG_AT, VERSION_AT,
};
use crate::generated::header::bytes::{is_same_word, read_u32, ByteArray};
use crate::generated::header::config::Config;
use crate::generated::header::sizes::len_of_slots;
use crate::generated::header::swisstable_group_query::REFERENCE_GROUP_SIZE;

/// Whether the header and the length of the bytes fit: true exactly where opening them by header
/// and length has no error, that is, they are enough for a header, and [`Header::sanity_check`]
/// finds none. It reads whole words, so it is faster, and does not tell which error comes first.
#[inline(always)]
pub fn is_accepted<C: Config>(bytes: &[u8]) -> bool {
    // One test for two: fewer bytes have no room for a header, or for the slots that each table
    // has.
    if (bytes.len() as u128) < len_of_slots::<C>(REFERENCE_GROUP_SIZE) {
        return false;
    }
    if !has_front::<C>(bytes) {
        return false;
    }
    if read_u32(bytes, VERSION_AT) != u32::from_le_bytes(CURRENT_FILE_FORMAT_VERSION) {
        return false;
    }
    let slot_count = Header::of(bytes).slot_count();
    if !slot_count.is_power_of_two() {
        return false;
    }
    bytes.len() as u128 == len_of_slots::<C>(slot_count)
}

// Whether the first eight bytes, the tag and the four sizes, are those of each table of this
// configuration.
#[inline(always)]
fn has_front<C: Config>(bytes: &[u8]) -> bool {
    let [first, second, third, fourth] = HEADER_TAG;
    let front = [
        first,
        second,
        third,
        fourth,
        METADATA_SIZE as u8,
        C::EncodedKey::LEN as u8,
        C::EncodedValue::LEN as u8,
        HEADER_SIZE as u8,
    ];
    is_same_word(bytes, &front, TAG_AT)
}
