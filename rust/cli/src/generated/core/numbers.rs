// Generated from crates/odht_tool_core/src/numbers.rt by make generate.
//! The numbers that `odht info` writes of a table of any key and value sizes.

use crate::generated::base::load::{max_item_count_for, Factor};
use crate::generated::core::advice::Advice;
use crate::generated::core::failure::Failure;
use crate::generated::core::found::read_hash;
use crate::generated::core::histogram::Histogram;
use crate::generated::core::shapes::Hash;
use crate::generated::core::stored::{least_key_size, StoredTable};
use crate::generated::header::header::Header;
use crate::host::prelude::*;
use crate::shim::{AllocError, Global};

/// What a table file holds, in numbers.
pub struct Numbers {
    /// How many bytes a key has.
    pub key_size: u8,
    /// How many bytes a value has.
    pub value_size: u8,
    /// How many bytes the table has.
    pub len: usize,
    /// The header's item count.
    pub item_count: usize,
    /// The header's slot count.
    pub slot_count: usize,
    /// How many items the slots take at most.
    pub max_item_count: usize,
    /// How many percent of the slots the items are, rounded down.
    pub load: u128,
    /// The percentage that the header's load factor is nearest to: that which it was made from, if
    /// it was made from one.
    pub max_load: u32,
    /// How many slots of each stretch are occupied, in slot order: at most 64 stretches, of equal
    /// length.
    pub stretches: Vec<usize>,
    /// The hash function by which the commands read the table, if one fits.
    pub hash: Option<Hash>,
    /// The bound of the numbers of groups, where there is one: larger ones are counted as one more
    /// than it.
    pub bound: Option<usize>,
    /// How many groups a search reads, by this hash function; of no items where there is none.
    pub histogram: Histogram,
    /// How many groups the longest search for an absent key reads at most.
    pub longest_miss: usize,
    /// What makes searches short, where some are long and something was found.
    pub advice: Option<Advice>,
}

/// The numbers of the bytes of a file, or the first error of their header and length. What was found
/// to make searches short is among them. With a bound it takes time in proportion to the bytes and the bound.
pub fn numbers_of(
    alloc: Global,
    bytes: &[u8],
    bound: Option<usize>,
    advice: Option<Advice>,
) -> Result<Numbers, Failure> {
    let table = StoredTable::open(bytes).map_err(Failure::Refused)?;
    let hash = read_hash(bytes, &table);
    let histogram = histogram_of(alloc, &table, hash, bound)?;
    let stretches = table.stretches(alloc)?;
    let header = Header::of(bytes);
    let (item_count, slot_count) = (header.item_count(), header.slot_count());
    let factor = header.max_load_factor();
    Ok(Numbers {
        key_size: header.key_size(),
        value_size: header.value_size(),
        len: bytes.len(),
        item_count,
        slot_count,
        max_item_count: max_item_count_for(slot_count, factor),
        load: percent_of(item_count, slot_count),
        max_load: nearest_percent(factor),
        stretches,
        hash,
        bound,
        histogram,
        longest_miss: table.longest_miss(bound),
        advice,
    })
}

// The histogram by this hash function; an empty one where there is none, or keys are too short
// for it.
fn histogram_of(
    alloc: Global,
    table: &StoredTable<'_>,
    hash: Option<Hash>,
    bound: Option<usize>,
) -> Result<Histogram, AllocError> {
    match hash {
        Some(hash) if least_key_size(hash) <= table.layout().key_len as usize => {
            table.histogram(alloc, hash, bound)
        }
        _ => Histogram::new(alloc),
    }
}

// How many percent of the slots are occupied, rounded down.
fn percent_of(item_count: usize, slot_count: usize) -> u128 {
    item_count as u128 * 100 / slot_count as u128
}

/// The percentage that a load factor is nearest to: that which it was made from, if it was made
/// from one.
pub(crate) fn nearest_percent(factor: Factor) -> u32 {
    let Factor(factor) = factor;
    (factor as u32 * 100 + 32767) / 65535
}
