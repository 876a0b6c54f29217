// Generated from crates/odht_base/src/swisstable_group_query.rt by make generate.
//! Searches of a group of control bytes.
//!
//! A group is searched for a tag, and for the first byte that counts as free. [`Group`] is what a
//! search of a table needs of it. There are two forms, [`no_simd::GroupQuery`] and
//! [`lanes::GroupQuery`]. Tables use the one that is named below; what they promise does not
//! depend on the choice.

mod free;
mod index_set;
mod lane_set;
pub mod lanes;
pub mod no_simd;

pub use free::{free_and_occupied, is_empty_or_deleted, late_free, occupied};
pub use index_set::IndexSet;
pub use lanes::{GroupQuery, GROUP_SIZE};

/// How many control bytes count as one group in the probe order, however many are searched at
/// once.
pub const REFERENCE_GROUP_SIZE: usize = 16;

/// A search of [`SIZE`](Group::SIZE) control bytes for a tag.
///
/// Its matches are indices into the group. Each byte that is the tag is among them, and no byte of
/// 128 or more. Other bytes may be among them, so the key has to be compared. How it is used:
/// docs/FORMAT.md, "Search".
pub trait Group: Sized {
    /// How many control bytes are searched at once.
    const SIZE: usize;

    /// Searches a group, `SIZE` bytes, for the tag `h2`, which is below 128.
    fn of(bytes: &[u8], h2: u8) -> Self;

    /// Whether the group has a byte of 128 or more.
    fn any_empty(&self) -> bool;

    /// The least index of a byte of 128 or more, whether or not matches were dropped.
    fn first_empty(&self) -> Option<usize>;

    /// The least match that is left; None once all were dropped.
    fn first_match(&self) -> Option<usize>;

    /// Drops the least match that is left, if there is one.
    fn drop_match(&mut self);

    /// Takes the least match that is left: returns and drops it; None once all were taken.
    fn next_match(&mut self) -> Option<usize> {
        let found = self.first_match();
        self.drop_match();
        found
    }
}
