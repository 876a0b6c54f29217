// Generated from crates/odht_raw/src/raw_table/dump.rt by make generate.
//! What `Debug` writes of a table: each slot on a line.

use super::{is_empty_or_deleted, Entry, RawTable};
use crate::generated::raw::bytes::ByteArray;
use crate::generated::raw::hash::HashFn;
use std::fmt;

impl<'a, K: ByteArray, V: ByteArray, H: HashFn> RawTable<'a, K, V, H> {
    // Writes the line before those of the slots.
    fn write_head(&self, f: &mut fmt::Formatter<'_>) -> fmt::Result {
        let slot_count = self.entries().len();
        let hash_name = H::hash_name();
        writeln!(f, "RawTable (slot_count={slot_count}, hash_fn={hash_name}) {{")
    }

    // Writes the line of a slot.
    fn write_slot_line(&self, slot: usize, f: &mut fmt::Formatter<'_>) -> fmt::Result {
        let control_byte = self.parts().control(slot);
        if is_empty_or_deleted(control_byte) {
            return writeln!(f, "slot {slot}: empty");
        }
        let Entry { key, value } = self.entries().get(slot);
        writeln!(f, "slot {slot}: key={key:?}, value={value:?}, control_byte={control_byte}")
    }
}

impl<'a, K: ByteArray, V: ByteArray, H: HashFn> fmt::Debug for RawTable<'a, K, V, H> {
    // The slot count and the name of the hash function on one line, then a line for each slot, in
    // slot order.
    fn fmt(&self, f: &mut fmt::Formatter<'_>) -> fmt::Result {
        self.write_head(f)?;
        for slot in 0..self.entries().len() {
            self.write_slot_line(slot, f)?;
        }
        writeln!(f, "}}")
    }
}
