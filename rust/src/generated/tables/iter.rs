// Generated from crates/odht/src/iter.rt by make generate.
//! A walk over the pairs of a table.

use crate::generated::tables::config::Config;
use crate::generated::tables::raw_table::{RawIter, RawSlots};
use std::iter::FusedIterator;

/// The keys and values of a table, decoded, in slot order.
///
/// A contract speaks of it as of the list of the pairs that are left. A whole walk reads each
/// control byte once.
pub struct Iter<'a, C: Config> {
    pub(crate) raw: RawIter<'a, C::EncodedKey, C::EncodedValue>,
}

impl<'a, C: Config> Iterator for Iter<'a, C> {
    type Item = (C::Key, C::Value);

    #[inline(always)]
    fn next(&mut self) -> Option<(C::Key, C::Value)> {
        match self.raw.next() {
            Some((_, entry)) => Some((C::decode_key(&entry.key), C::decode_value(&entry.value))),
            None => None,
        }
    }
}

impl<'a, C: Config> FusedIterator for Iter<'a, C> {}

/// The slots that hold a pair, from a slot on, in slot order: the number of each, with its key and
/// value, decoded. A caller that stops at a pair may go on later from the number that comes with
/// it.
///
/// A contract speaks of it as of the list of the slots that are left. A whole walk reads each
/// control byte once.
pub struct Slots<'a, C: Config> {
    pub(crate) raw: RawSlots<'a, C::EncodedKey, C::EncodedValue>,
}

impl<'a, C: Config> Iterator for Slots<'a, C> {
    type Item = (usize, (C::Key, C::Value));

    #[inline(always)]
    fn next(&mut self) -> Option<(usize, (C::Key, C::Value))> {
        match self.raw.next() {
            Some((slot, (_, entry))) => {
                Some((slot, (C::decode_key(&entry.key), C::decode_value(&entry.value))))
            }
            None => None,
        }
    }
}

impl<'a, C: Config> FusedIterator for Slots<'a, C> {}
