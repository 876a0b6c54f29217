// Generated from crates/odht_raw/src/raw_table/probe_seq.rt by make generate.
//! The probe order of the slots of a table, a group at a time, and the groups of control bytes along
//! it, as each search reads them.

use super::{EntryMetadata, Scan};
use crate::generated::raw::error::Error;
use crate::generated::raw::swisstable_group_query::REFERENCE_GROUP_SIZE;
use crate::shim::Global;
use alloc::vec::Vec;

/// A position of the probe order of a table, from which the next `GROUP_SIZE` slots are searched.
/// The order is that of docs/FORMAT.md, "Probe order".
///
/// Whatever `GROUP_SIZE` is, a divisor of 16, the slots come in the same order: that of groups of
/// sixteen. So a table that is written with one group search can be read with any other. In a
/// contract it is the home slot, the mask and the position.
///
/// Beside these it keeps the slot at the position (`index`), the first slot of its group (`base`),
/// how far the slot is behind that one (`chunk_index`), and sixteen times the number of the group
/// (`stride`).
pub struct ProbeSeq<const GROUP_SIZE: usize> {
    home: usize,
    mask: usize,
    position: usize,
    index: usize,
    base: usize,
    chunk_index: usize,
    stride: usize,
}

impl<const GROUP_SIZE: usize> ProbeSeq<GROUP_SIZE> {
    /// The first position of the probe order of the hash `h1` among `mask + 1` slots.
    #[inline]
    pub fn new(h1: usize, mask: usize) -> Self {
        let initial_index = h1 & mask;
        ProbeSeq {
            home: initial_index,
            mask,
            position: 0,
            index: initial_index,
            base: initial_index,
            chunk_index: 0,
            stride: 0,
        }
    }

    /// Advances by `GROUP_SIZE` positions, of which there must be more: `is_last` is false. The
    /// mask is that of `new`.
    #[inline]
    pub fn advance(&mut self, mask: usize) {
        self.chunk_index += GROUP_SIZE;
        if self.chunk_index == REFERENCE_GROUP_SIZE {
            self.chunk_index = 0;
            self.stride += REFERENCE_GROUP_SIZE;
            self.base = (self.base + self.stride) & mask;
        }
        self.index = (self.base + self.chunk_index) & mask;
        self.position += GROUP_SIZE;
    }

    /// The slot at the position.
    #[inline]
    pub fn index(&self) -> usize {
        self.index
    }

    /// Whether no position comes after the `GROUP_SIZE` positions from this one on.
    #[inline]
    pub fn is_last(&self) -> bool {
        self.mask < self.position + GROUP_SIZE
    }

    // The mask of `new`, which `advance` is given.
    #[inline]
    pub(super) fn mask(&self) -> usize {
        self.mask
    }
}

/// The slot at a position of the probe order of a home.
#[inline]
pub(super) fn probed_slot(home: usize, position: usize, slots: usize) -> usize {
    let group = position / REFERENCE_GROUP_SIZE;
    let steps = (8 * group).wrapping_mul(group + 1);
    home.wrapping_add(steps).wrapping_add(position % REFERENCE_GROUP_SIZE) & (slots - 1)
}

/// The slots of a table in the probe order of the home slot `start`, each exactly once
/// (docs/FORMAT.md, "Probe order").
///
/// The only error is `Memory`, where the list cannot be allocated. One pass over the slots.
pub fn probe_order(alloc: Global, start: usize, slots: usize) -> Result<Vec<usize>, Error> {
    let mut list = crate::shim::with_capacity(alloc, slots)?;
    let mask = slots - 1;
    let mut probe = ProbeSeq::<1>::new(start, mask);
    for position in 0..slots {
        list.push(probe.index());
        if position + 1 < slots {
            probe.advance(mask);
        }
    }
    Ok(list)
}

/// The place of a search: the group of sixteen slots at hand, of those along its probe order, and
/// the control bytes.
///
/// In a contract it is the control bytes, how many groups of them were read, the home slot, and
/// the position of the group's first slot in the order.
pub struct GroupProbe<'a> {
    scan: Scan<'a>,
    probe: ProbeSeq<REFERENCE_GROUP_SIZE>,
}

impl<'a> GroupProbe<'a> {
    /// The first group of the probe order of a hash, or of a home slot, in the control bytes of
    /// `slots` slots.
    #[inline(always)]
    pub fn new(control: &'a [EntryMetadata], slots: usize, hash: usize) -> Self {
        GroupProbe { scan: Scan::new(control, slots), probe: ProbeSeq::new(hash, slots - 1) }
    }

    /// The first slot of the group.
    #[inline(always)]
    pub fn start(&self) -> usize {
        self.probe.index()
    }

    /// The sixteen control bytes of the group. Counts one group more.
    #[inline(always)]
    pub fn read(&mut self) -> &'a [EntryMetadata] {
        self.scan.group(self.probe.index())
    }

    /// Whether it is the last group.
    #[inline(always)]
    pub fn is_last(&self) -> bool {
        self.probe.is_last()
    }

    /// Goes on to the next group.
    #[inline(always)]
    pub fn advance(&mut self) {
        let mask = self.probe.mask();
        self.probe.advance(mask);
    }
}
