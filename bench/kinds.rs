//! The kinds of keys with which the crate for Rust is measured.

pub trait Kind {
    type Key: Copy;

    const NAME: &'static str;

    fn of(number: u64) -> Self::Key;
}

pub struct Numbers;

impl Kind for Numbers {
    type Key = u64;

    const NAME: &'static str = "u64";

    fn of(number: u64) -> u64 {
        number
    }
}

/// Multiples of a power of two, as addresses are: few slots are their homes.
pub struct Multiples<const FACTOR: u64>;

impl<const FACTOR: u64> Kind for Multiples<FACTOR> {
    type Key = u64;

    const NAME: &'static str = match FACTOR {
        16 => "u64, multiples of 16",
        _ => "u64, multiples of 4096",
    };

    fn of(number: u64) -> u64 {
        number.wrapping_mul(FACTOR)
    }
}

pub struct Array<const LEN: usize>;

impl<const LEN: usize> Kind for Array<LEN> {
    type Key = [u8; LEN];

    const NAME: &'static str = match LEN {
        12 => "12 bytes",
        16 => "16 bytes",
        20 => "20 bytes",
        32 => "32 bytes",
        64 => "64 bytes",
        _ => "255 bytes",
    };

    fn of(number: u64) -> [u8; LEN] {
        let mut word = number;
        let mut key = [0; LEN];
        for part in key.chunks_mut(8) {
            part.copy_from_slice(&word.to_le_bytes()[..part.len()]);
            word = word.rotate_left(32).wrapping_mul(0x9e37_79b9_7f4a_7c15);
        }
        key
    }
}
