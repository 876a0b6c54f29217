// Generated from crates/odht_base/src/load.rt by make generate.
//! Load factors: how many items a table may hold, and how many slots it needs for them.
//!
//! The rules are those of docs/FORMAT.md, "Load factors".

/// A load factor in units of 1/65536: of `s` slots at most `s * factor / 65536`, rounded down, are
/// occupied.
///
/// 100 percent is 65535, so a table at its maximum item count always has a free slot.
#[derive(Debug, Clone, Copy, PartialEq, Eq)]
pub struct Factor(pub u16);

impl Factor {
    /// The load factor of 100 percent.
    pub const BASE: usize = 65535;

    /// The load factor of `percent` percent, at most 100, rounded down.
    #[inline]
    pub fn from_percent(percent: u8) -> Factor {
        Factor((percent as usize * Self::BASE / 100) as u16)
    }

    /// The percentage, rounded down. It may be one less than the percentage that the factor was
    /// made from.
    #[inline]
    pub fn to_percent(self) -> usize {
        self.0 as usize * 100 / Self::BASE
    }

    /// The most items that `x` slots may hold: `x * self / 65536`, rounded down.
    ///
    /// The divisor is 65536 here and 65535 in `apply_inverse`.
    #[inline]
    pub fn apply(self, x: usize) -> usize {
        (x as u128 * self.0 as u128 / 65536) as usize
    }

    /// `x * 65535 / self`, rounded up; the factor is at least 1. It does not undo `apply`, whose
    /// divisor is 65536, and slot counts are not found by it.
    #[inline]
    pub fn apply_inverse(self, x: usize) -> u128 {
        (Self::BASE as u128 * x as u128).div_ceil(self.0 as u128)
    }
}

/// A load factor in percent with which a table can be made: from 1 to 100. In a contract it is
/// this number.
#[derive(Debug, Clone, Copy, PartialEq, Eq)]
pub struct Percent {
    value: u8,
}

impl Percent {
    /// The percentage `value`, or None where it is not from 1 to 100.
    #[inline]
    pub fn new(value: u8) -> Option<Percent> {
        if value < 1 || value > 100 {
            return None;
        }
        Some(Percent { value })
    }

    /// The number itself, from 1 to 100.
    #[inline]
    pub fn value(self) -> u8 {
        self.value
    }
}

/// The least slot count for `max_item_count` items: the least power of two from 16 on whose
/// maximum item count is no less. None exactly where no power of two up to 2^63 is enough. The
/// factor is at least 1.
#[inline]
pub fn slots_needed(max_item_count: usize, max_load_factor: Factor) -> Option<usize> {
    let occupied = (max_item_count as u128 * 65536).div_ceil(max_load_factor.0 as u128);
    if occupied > 1 << 63 {
        return None;
    }
    Some((occupied as usize).max(16).next_power_of_two())
}

/// The maximum item count of `slot_count` slots: at least one slot stays free.
#[inline]
pub fn max_item_count_for(slot_count: usize, max_load_factor: Factor) -> usize {
    max_load_factor.apply(slot_count)
}
