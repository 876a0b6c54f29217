//! A library without std: it opens a table that is in the program, and makes tables in memory.

#![no_std]
#![forbid(unsafe_code)]

extern crate alloc;

use alloc::boxed::Box;
use core::error::Error;
use odht::{HashTable, HashTableOwned};

odht::config! {
    /// From numbers to numbers.
    pub Numbers: u64 => u32, by Fx;
}

/// What may hold an error of any type.
pub type AnyError = Box<dyn Error + Send + Sync>;

/// The table of 1 to 2, 3 to 4 and 5 to 6. docs/FORMAT.md works its bytes out by hand; those of a file would come by
/// `include_bytes!`.
pub static BYTES: [u8; 256] = three_pairs();

const fn three_pairs() -> [u8; 256] {
    let mut bytes = [0; 256];
    (bytes[0], bytes[1], bytes[2], bytes[3]) = (0x4f, 0x44, 0x48, 0x54);
    (bytes[4], bytes[5], bytes[6], bytes[7]) = (1, 8, 4, 0x20);
    (bytes[8], bytes[16], bytes[27]) = (3, 16, 2);
    (bytes[28], bytes[29]) = (0x32, 0xf3);
    (bytes[92], bytes[100]) = (1, 2);
    (bytes[140], bytes[148]) = (5, 6);
    (bytes[212], bytes[220]) = (3, 4);
    let mut control = 224;
    while control < 256 {
        bytes[control] = match (control - 224) % 16 {
            5 => 0x13,
            9 => 0x61,
            15 => 0x3a,
            _ => 255,
        };
        control += 1;
    }
    bytes
}

/// The value of a key in the table that some bytes are.
pub fn look_up(bytes: &[u8], key: u64) -> Result<Option<u32>, AnyError> {
    Ok(HashTable::<Numbers, _>::try_from_raw_bytes(bytes)?.get(&key))
}

/// The same table, made in memory, and grown there by so many pairs: from 100 to 1000, from 101 to 1010 and so on.
pub fn made(more: u32) -> Result<HashTableOwned<Numbers>, AnyError> {
    let mut table = HashTableOwned::try_with_capacity(3, 95)?;
    for (key, value) in [(1, 2), (3, 4), (5, 6)] {
        table.try_insert(&key, &value)?;
    }
    for number in 100..100 + more {
        table.try_insert(&number.into(), &(number * 10))?;
    }
    Ok(table)
}
