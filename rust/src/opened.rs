//! The length and slot count of a table when it was opened, and the item count in its header.
//!
//! A table over a `D: Borrow<[u8]>` borrows the bytes at each call, and a `D` that is badly written
//! may return others. The proved library relies on their length and on the slot count in their
//! header. So both are kept here, and compared at each call. They are then taken from here and
//! never read from the bytes again: another process may write to a mapped file (`shim::slots`).

use crate::config::{Config, Proved};
use crate::generated::header::layout::Layout;
use crate::generated::raw::memory_layout::{Header, HEADER_SIZE};
use crate::iter::occupied_in;
use crate::shim::slots;

/// The length and the slot count of a table's bytes, which fit.
#[derive(Clone, Copy)]
pub struct Opened {
    len: usize,
    slots: u64,
}

impl Opened {
    /// Of bytes whose header and length were found to fit. Panics if they no longer do, because
    /// another process has written to the mapped file since then.
    #[inline]
    pub fn of(bytes: &[u8], layout: Layout) -> Opened {
        Opened::fitting(bytes, layout).unwrap_or_else(|| slots::others())
    }

    /// Of bytes that nobody has checked. Panics if their length does not match the slot count in
    /// their header. For its accesses to memory the proved library relies on nothing else.
    #[track_caller]
    pub fn unchecked<C: Config>(bytes: &[u8]) -> Opened {
        let opened = Opened::fitting(bytes, Layout::of::<Proved<C>>());
        let is_count = |it: &Opened| it.slots.is_power_of_two() && it.slots >= 16;
        opened
            .filter(is_count)
            .expect("the length of the bytes is not that of the slot count in their header")
    }

    // Of bytes with a slot count that fits their length. No other slot count fits it, so it is that
    // of the header that was opened.
    #[inline]
    fn fitting(bytes: &[u8], layout: Layout) -> Option<Opened> {
        let (len, slots) = (bytes.len(), slots_in(bytes.first_chunk()?));
        slots::fits(len, slots as usize, layout).then_some(Opened { len, slots })
    }

    /// The number of slots.
    #[inline]
    pub fn slots(self) -> usize {
        self.slots as usize
    }

    /// Panics if the bytes are longer or shorter than those that were opened, or have another slot
    /// count. The layout is that of `of`. With the tests in this order, the compiler moves them out
    /// of a loop of lookups.
    #[inline(always)]
    #[allow(unsafe_code)]
    pub fn check(self, bytes: &[u8], layout: Layout) {
        let Some(header) = bytes.first_chunk() else { slots::others() };
        let slots = slots_in(header);
        if bytes.len() != self.len || slots != self.slots {
            slots::others();
        }
        // SAFETY: `fitting` saw it, of this layout. The two numbers are in this value.
        unsafe { slots::known(self.len, self.slots as usize, layout) }
    }
}

// The slot count in a header.
#[inline(always)]
fn slots_in(header: &[u8; HEADER_SIZE]) -> u64 {
    let (_, fields) = header.split_at(16);
    fields.first_chunk().map_or(0, |field| u64::from_le_bytes(*field))
}

/// Writes the number of the occupied slots to the header. The header and the length of the bytes fit.
pub fn count_again(bytes: &mut [u8], layout: Layout) {
    let slots = Header::of(bytes).slot_count();
    let control = HEADER_SIZE + slots * layout.entry_len();
    let count = occupied_in(&bytes[control..control + slots]) as u64;
    bytes[8..16].copy_from_slice(&count.to_le_bytes());
}
