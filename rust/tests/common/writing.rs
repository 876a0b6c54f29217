//! A second writing of tables, by docs/FORMAT.md, slot by slot. It shares no code with the crate.

use super::reading::{Format, Reading};

/// The load factor of a percentage.
pub fn factor_of(percent: u8) -> u16 {
    (u32::from(percent) * 65535 / 100) as u16
}

/// The least slot count for that many items. There has to be one.
pub fn slots_for(items: usize, factor: u16) -> usize {
    let is_enough = |slots: &u128| slots * u128::from(factor) >= 65536 * items as u128;
    (4..64).map(|power| 1_u128 << power).find(is_enough).expect("enough slots") as usize
}

/// A table that is written slot by slot.
#[derive(Clone)]
pub struct Writing {
    pub format: Format,
    pub bytes: Vec<u8>,
}

impl Writing {
    /// The fresh table for that many items at this percentage.
    pub fn new(format: Format, items: usize, percent: u8) -> Writing {
        let factor = factor_of(percent);
        Writing::with_slots(format, slots_for(items, factor), factor)
    }

    /// The empty table of that many slots.
    pub fn with_slots(format: Format, slots: usize, factor: u16) -> Writing {
        let mut bytes = b"ODHT".to_vec();
        bytes.extend([1, format.key as u8, format.value as u8, 32]);
        bytes.extend([0; 8]);
        bytes.extend((slots as u64).to_le_bytes());
        bytes.extend([0, 0, 0, 2]);
        bytes.extend(factor.to_le_bytes());
        bytes.extend([0; 2]);
        bytes.resize(32 + slots * (format.key + format.value), 0);
        bytes.resize(bytes.len() + slots + 16, 255);
        Writing { format, bytes }
    }

    pub fn reading(&self) -> Reading<'_> {
        Reading::new(self.format, &self.bytes)
    }

    /// Puts a key and a value where the search for the key ends. `None` where it ends at no slot; else the former
    /// value, if there was one.
    pub fn put(&mut self, key: &[u8], value: &[u8]) -> Option<Option<Vec<u8>>> {
        let table = self.reading();
        let slot = table.search_end(key)?;
        let (entry, control) = (table.entry_at(slot), table.control_at(slot));
        let former = table.is_occupied(slot).then(|| table.value(slot).to_vec());
        let (slots, count) = (table.slots(), table.count());
        self.bytes[entry..][..key.len()].copy_from_slice(key);
        self.bytes[entry + key.len()..][..value.len()].copy_from_slice(value);
        if former.is_none() {
            let tag = self.format.tag_of(key);
            self.bytes[control] = tag;
            if slot < 16 {
                self.bytes[control + slots] = tag;
            }
            self.bytes[8..16].copy_from_slice(&(count as u64 + 1).to_le_bytes());
        }
        Some(former)
    }

    /// Whether an insert of the key is refused by a view, and makes the owned table grow.
    pub fn is_full_for(&self, key: &[u8]) -> bool {
        let table = self.reading();
        let is_present = table.search_end(key).is_some_and(|slot| table.is_occupied(slot));
        !is_present && table.count() >= table.maximum()
    }

    /// The table with the slots for twice its items, and for one at least.
    pub fn grown(&self) -> Writing {
        let table = self.reading();
        let factor = table.factor() as u16;
        let slots = slots_for((2 * table.count()).max(1), factor);
        let mut grown = Writing::with_slots(self.format, slots, factor);
        for slot in table.occupied() {
            grown.put(table.key(slot), table.value(slot)).expect("there is room");
        }
        grown
    }

    /// An insert as the owned table makes it.
    pub fn insert(&mut self, key: &[u8], value: &[u8]) -> Option<Vec<u8>> {
        if self.is_full_for(key) {
            *self = self.grown();
        }
        self.put(key, value).expect("there is room")
    }
}
