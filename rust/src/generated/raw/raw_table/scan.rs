// Generated from crates/odht_raw/src/raw_table/scan.rt by make generate.
//! The control bytes of a table as a search reads them.

use super::EntryMetadata;

/// The control bytes of a table, read a group of sixteen at a time, and how many groups were read.
///
/// `group` is the only call that shows control bytes, and it counts each group. Nothing else sets
/// the count, and no second scan can be made from a scan: a search that borrows one cannot read a
/// group without counting it.
///
/// What counts as a group that was read: docs/FORMAT.md, "Search". In a contract it is the control
/// bytes and that number.
pub struct Scan<'a> {
    control: &'a [EntryMetadata],
    slots: usize,
    groups: usize,
}

impl<'a> Scan<'a> {
    /// The control bytes of `slots` slots with their mirror, of which no group was read.
    #[inline]
    pub fn new(control: &'a [EntryMetadata], slots: usize) -> Scan<'a> {
        Scan { control, slots, groups: 0 }
    }

    /// How many slots there are.
    #[inline]
    pub fn slots(&self) -> usize {
        self.slots
    }

    /// The sixteen control bytes from that of slot `start` on, which run into the mirror after the
    /// last slot. Counts one group more.
    #[inline]
    pub fn group(&mut self, start: usize) -> &'a [EntryMetadata] {
        self.groups = self.groups.saturating_add(1);
        let control = self.control;
        &index!(control[start..start + 16], "start < length self.old.control - 16")
    }

    /// How many groups were read; `usize::MAX` where they are more.
    #[inline]
    pub fn groups(&self) -> usize {
        self.groups
    }
}
