// Generated from crates/odht_raw/src/raw_table/search_result.rt by make generate.
//! What a search returns.

/// The slot where a search ended.
#[derive(Clone, Copy, PartialEq, Eq, Debug)]
pub enum Search {
    /// This slot holds the key.
    Found(usize),
    /// The search met this slot, which counts as free. On the parts of a placed table no slot
    /// holds the key, and this is the first free slot of its probe order.
    Free(usize),
    /// The search met no slot that is free or holds the key. On the parts of a placed table there
    /// is no such slot.
    Neither,
}
