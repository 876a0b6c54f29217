// Generated from crates/odht_header/src/header.rt by make generate.
//! The header of a table: its fields at their offsets, how it is written, and how it is checked.
//!
//! The fields are those of docs/FORMAT.md, "Layout".

use crate::generated::header::bytes::{read_u64, write_slice};
use crate::generated::header::config::Config;
use crate::generated::header::error::{Error, Part};
use crate::generated::header::layout::Layout;
use crate::generated::header::load::{max_item_count_for, Factor};
use crate::generated::header::swisstable_group_query::REFERENCE_GROUP_SIZE;

mod words;

pub use words::is_accepted;

/// How many bytes the header has.
pub const HEADER_SIZE: usize = 32;
/// The first four bytes of each table.
const HEADER_TAG: [u8; 4] = *b"ODHT";
/// The version of the format that is written and read.
const CURRENT_FILE_FORMAT_VERSION: [u8; 4] = [0, 0, 0, 2];
// The offsets of the fields.
const TAG_AT: usize = 0;

const METADATA_SIZE_AT: usize = 4;

const KEY_SIZE_AT: usize = 5;

const VALUE_SIZE_AT: usize = 6;

const HEADER_SIZE_AT: usize = 7;

/// Where the item count begins in the header.
pub const ITEM_COUNT_AT: usize = 8;

const SLOT_COUNT_AT: usize = 16;

const VERSION_AT: usize = 24;

const LOAD_FACTOR_AT: usize = 28;

const PADDING_AT: usize = 30;
// How many bytes a control byte takes.
const METADATA_SIZE: usize = 1;

/// The load factor of one percent in 65536ths, rounded down, which is the least.
pub const LEAST_FACTOR: u16 = 655;

/// A reader of a table's header, field by field, at any alignment.
pub struct Header<'a> {
    bytes: &'a [u8],
}

impl<'a> Header<'a> {
    /// The header of the bytes, of which there are at least 32.
    #[inline]
    pub fn of(bytes: &'a [u8]) -> Self {
        Header { bytes }
    }

    /// Checks the header as that of a table of `raw_bytes_len` bytes, and returns the first error:
    /// `WrongTag`, `WrongVersion`, `WrongSizeOf` of a control byte, key, value or header,
    /// `SlotCountNotPowerOfTwo`, `SlotCountTooSmall`, `WrongLength`.
    ///
    /// A table's length is computed in 128 bits, so a forged slot count cannot make it wrap.
    #[inline(always)]
    pub fn sanity_check<C: Config>(&self, raw_bytes_len: usize) -> Result<(), Error> {
        self.check_layout(Layout::of::<C>(), raw_bytes_len)
    }

    /// [`Header::sanity_check`] as that of a table of these lengths, whatever the hash function.
    #[inline(always)]
    pub fn check_layout(&self, layout: Layout, raw_bytes_len: usize) -> Result<(), Error> {
        self.check_fields(layout)?;
        self.check_length(layout, raw_bytes_len)
    }

    /// The length in bytes of the table of these lengths with this header at the front of `found`
    /// bytes. Or the first error: those of [`Header::check_layout`], but `WrongLength` only where
    /// there are fewer bytes than the table has, whose length is then `expected`; a forged one does
    /// not wrap. The hash function does not matter.
    #[inline]
    pub fn layout_len(&self, layout: Layout, found: usize) -> Result<usize, Error> {
        self.check_fields(layout)?;
        let slot_count = self.slot_count();
        let expected = layout.len_of_slots(slot_count);
        if (found as u128) < expected {
            return Err(Error::WrongLength { slot_count, found, expected });
        }
        Ok(expected as usize)
    }

    // The first error of the fields: those of `sanity_check` but `WrongLength`.
    #[inline(always)]
    fn check_fields(&self, layout: Layout) -> Result<(), Error> {
        self.check_tag()?;
        self.check_version()?;
        self.check_metadata_size()?;
        self.check_expected_size(KEY_SIZE_AT, Part::EncodedKey, layout.key_len as usize)?;
        self.check_expected_size(VALUE_SIZE_AT, Part::EncodedValue, layout.value_len as usize)?;
        self.check_header_size()?;
        self.check_slot_count()
    }

    /// Whether the first four bytes are those that every table begins with; else `WrongTag`.
    #[inline(always)]
    pub fn check_tag(&self) -> Result<(), Error> {
        let found = self.word(TAG_AT);
        if found == HEADER_TAG {
            Ok(())
        } else {
            Err(Error::WrongTag { found })
        }
    }

    /// Whether the version is the one that is read; else `WrongVersion`.
    #[inline(always)]
    pub fn check_version(&self) -> Result<(), Error> {
        let found = self.word(VERSION_AT);
        if found == CURRENT_FILE_FORMAT_VERSION {
            Ok(())
        } else {
            Err(Error::WrongVersion { found })
        }
    }

    // The four bytes from `at` on.
    #[inline]
    fn word(&self, at: usize) -> [u8; 4] {
        let bytes = self.bytes;
        [bytes[at], bytes[at + 1], bytes[at + 2], bytes[at + 3]]
    }

    /// Whether the header says that a control byte takes one byte; else `WrongSizeOf`.
    #[inline(always)]
    pub fn check_metadata_size(&self) -> Result<(), Error> {
        self.check_expected_size(METADATA_SIZE_AT, Part::EntryMetadata, METADATA_SIZE)
    }

    /// Whether the header says that it is 32 bytes long; else `WrongSizeOf`.
    #[inline(always)]
    pub fn check_header_size(&self) -> Result<(), Error> {
        self.check_expected_size(HEADER_SIZE_AT, Part::Header, HEADER_SIZE)
    }

    // Whether by the byte `at` the part has this size; else `WrongSizeOf`.
    #[inline(always)]
    fn check_expected_size(&self, at: usize, part: Part, expected: usize) -> Result<(), Error> {
        let bytes = self.bytes;
        let found = bytes[at];
        if found as usize == expected {
            Ok(())
        } else {
            Err(Error::WrongSizeOf { part, expected, found })
        }
    }

    /// `SlotCountNotPowerOfTwo` unless the slot count is one, then `SlotCountTooSmall` below 16.
    #[inline(always)]
    pub fn check_slot_count(&self) -> Result<(), Error> {
        let found = self.slot_count();
        if !found.is_power_of_two() {
            Err(Error::SlotCountNotPowerOfTwo { found })
        } else if found < REFERENCE_GROUP_SIZE {
            Err(Error::SlotCountTooSmall { found })
        } else {
            Ok(())
        }
    }

    // Whether a table of the header's slot count has so many bytes; else `WrongLength`.
    #[inline(always)]
    fn check_length(&self, layout: Layout, found: usize) -> Result<(), Error> {
        let slot_count = self.slot_count();
        let expected = layout.len_of_slots(slot_count);
        if found as u128 == expected {
            Ok(())
        } else {
            Err(Error::WrongLength { slot_count, found, expected })
        }
    }

    /// Whether the load factor is at least that of one percent, 655; else `LoadFactorTooSmall`.
    pub fn check_load_factor(&self) -> Result<(), Error> {
        let Factor(found) = self.max_load_factor();
        if found < LEAST_FACTOR {
            Err(Error::LoadFactorTooSmall { found })
        } else {
            Ok(())
        }
    }

    /// Whether the padding is two zeros; else `NonZeroPadding`.
    pub fn check_padding(&self) -> Result<(), Error> {
        let bytes = self.bytes;
        let found = [bytes[PADDING_AT], bytes[PADDING_AT + 1]];
        if found == [0, 0] {
            Ok(())
        } else {
            Err(Error::NonZeroPadding { found })
        }
    }

    /// `WrongItemCount` unless that many were found, then `TooManyItems` above the maximum.
    pub fn check_item_count(&self, found: usize) -> Result<(), Error> {
        let stated = self.item_count();
        if stated != found {
            return Err(Error::WrongItemCount { stated, found });
        }
        let max = max_item_count_for(self.slot_count(), self.max_load_factor());
        if max < stated {
            return Err(Error::TooManyItems { count: stated, max });
        }
        Ok(())
    }

    /// The key size in the header, in bytes.
    #[inline]
    pub fn key_size(&self) -> u8 {
        let bytes = self.bytes;
        bytes[KEY_SIZE_AT]
    }

    /// The value size in the header, in bytes.
    #[inline]
    pub fn value_size(&self) -> u8 {
        let bytes = self.bytes;
        bytes[VALUE_SIZE_AT]
    }

    /// The header's item count.
    #[inline]
    pub fn item_count(&self) -> usize {
        let bytes = self.bytes;
        read_u64(bytes, ITEM_COUNT_AT) as usize
    }

    /// The header's slot count.
    #[inline]
    pub fn slot_count(&self) -> usize {
        let bytes = self.bytes;
        read_u64(bytes, SLOT_COUNT_AT) as usize
    }

    /// The header's load factor.
    #[inline]
    pub fn max_load_factor(&self) -> Factor {
        let bytes = self.bytes;
        Factor(u16::from_le_bytes([bytes[LOAD_FACTOR_AT], bytes[LOAD_FACTOR_AT + 1]]))
    }
}

/// Writes all 32 bytes of the header of a table of that many slots and items.
pub fn write_header<C: Config>(
    header: &mut [u8],
    slot_count: usize,
    item_count: usize,
    max_load_factor: Factor,
) {
    Layout::of::<C>().write_header(header, slot_count, item_count, max_load_factor);
}

impl Layout {
    /// [`write_header`] of a table of these lengths.
    #[inline(always)]
    pub fn write_header(
        self,
        header: &mut [u8],
        slot_count: usize,
        item_count: usize,
        max_load_factor: Factor,
    ) {
        let sizes = [METADATA_SIZE as u8, self.key_len, self.value_len, HEADER_SIZE as u8];
        write_slice(header, TAG_AT, &HEADER_TAG);
        write_slice(header, METADATA_SIZE_AT, &sizes);
        write_slice(header, ITEM_COUNT_AT, &(item_count as u64).to_le_bytes());
        write_slice(header, SLOT_COUNT_AT, &(slot_count as u64).to_le_bytes());
        write_slice(header, VERSION_AT, &CURRENT_FILE_FORMAT_VERSION);
        write_slice(header, LOAD_FACTOR_AT, &max_load_factor.0.to_le_bytes());
        write_slice(header, PADDING_AT, &[0, 0]);
    }
}
