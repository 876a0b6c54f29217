//! Types of the standard library that are no numbers, arrays or tuples.

use super::Fixed;
use std::net::{Ipv4Addr, Ipv6Addr};
use std::num::{NonZeroI128, NonZeroI16, NonZeroI32, NonZeroI64, NonZeroI8};
use std::num::{NonZeroU128, NonZeroU16, NonZeroU32, NonZeroU64, NonZeroU8};

impl Fixed for char {
    const LEN: usize = 4;

    /// The number of the character, little-endian.
    #[inline(always)]
    fn write(&self, to: &mut [u8]) {
        u32::from(*self).write(to);
    }

    /// A number that is not that of a character is read as [`char::REPLACEMENT_CHARACTER`].
    #[inline(always)]
    fn read(from: &[u8]) -> Self {
        char::from_u32(u32::read(from)).unwrap_or(char::REPLACEMENT_CHARACTER)
    }
}

impl<T: Fixed> Fixed for Option<T> {
    const LEN: usize = 1 + T::LEN;

    /// `Some` is a byte 1 and the bytes of the value. `None` is the same number of zeros.
    #[inline(always)]
    fn write(&self, to: &mut [u8]) {
        let (is_some, value) = to.split_at_mut(1);
        self.is_some().write(is_some);
        match self {
            Some(it) => it.write(value),
            None => value.fill(0),
        }
    }

    /// A first byte other than 0 means `Some`. The bytes after a 0 are not read.
    #[inline(always)]
    fn read(from: &[u8]) -> Self {
        let (is_some, value) = from.split_at(1);
        bool::read(is_some).then(|| T::read(value))
    }
}

macro_rules! numbers_without_zero {
    ($($name:ident $number:ty;)*) => { $(
        impl Fixed for $name {
            const LEN: usize = <$number as Fixed>::LEN;

            /// The number, little-endian.
            #[inline(always)]
            fn write(&self, to: &mut [u8]) {
                self.get().write(to);
            }

            /// A zero is read as 1.
            #[inline(always)]
            fn read(from: &[u8]) -> Self {
                const ONE: $name = match $name::new(1) {
                    Some(one) => one,
                    None => unreachable!(),
                };
                $name::new(<$number>::read(from)).unwrap_or(ONE)
            }
        }
    )* };
}

numbers_without_zero! {
    NonZeroU8 u8;
    NonZeroU16 u16;
    NonZeroU32 u32;
    NonZeroU64 u64;
    NonZeroU128 u128;
    NonZeroI8 i8;
    NonZeroI16 i16;
    NonZeroI32 i32;
    NonZeroI64 i64;
    NonZeroI128 i128;
}

impl Fixed for Ipv4Addr {
    const LEN: usize = 4;

    /// The four numbers, in the order in which the address is written.
    #[inline(always)]
    fn write(&self, to: &mut [u8]) {
        to.copy_from_slice(&self.octets());
    }

    #[inline(always)]
    fn read(from: &[u8]) -> Self {
        Ipv4Addr::from(<[u8; 4]>::read(from))
    }
}

impl Fixed for Ipv6Addr {
    const LEN: usize = 16;

    /// The sixteen bytes, in the order in which the address is written.
    #[inline(always)]
    fn write(&self, to: &mut [u8]) {
        to.copy_from_slice(&self.octets());
    }

    #[inline(always)]
    fn read(from: &[u8]) -> Self {
        Ipv6Addr::from(<[u8; 16]>::read(from))
    }
}
