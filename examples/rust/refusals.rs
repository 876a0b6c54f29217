//! Errors: damaged tables and wrong arguments.

use odht_ffi::{bytes_needed, Error, Table, TableMut, U64U32};

use crate::say::{say, status};
use crate::{LENGTH, PAIRS, PERCENT};

fn changed(bytes: &[u8], index: usize, byte: u8) -> Vec<u8> {
    let mut copy = bytes.to_vec();
    copy[index] = byte;
    copy
}

pub fn open_damaged(bytes: &[u8]) {
    println!("\ndamaged copies of the first table");
    say("none", Table::<U64U32>::open(bytes));
    say("31 bytes are left", Table::<U64U32>::open(&bytes[..31]));
    say("one byte is cut off", Table::<U64U32>::open(&bytes[..LENGTH - 1]));
    for (index, byte) in [(0, 80), (27, 3), (5, 16), (16, 24), (16, 8), (16, 32), (32, 7), (808, 15)] {
        let copy = changed(bytes, index, byte);
        say(&format!("byte {index} is {byte}"), Table::<U64U32>::open(&copy));
    }
}

/// Opening finds none of these changes.
pub fn check_damaged(bytes: &[u8]) {
    println!("\nthe whole check of such copies");
    say("none", Table::<U64U32>::checked(bytes));
    for (index, byte) in [(29, 0), (30, 1), (800, 128), (872, 255), (8, 41), (29, 3)] {
        let copy = changed(bytes, index, byte);
        let opened = status(&Table::<U64U32>::open(&copy));
        say(&format!("byte {index} is {byte}, open: {opened}, check"), Table::<U64U32>::checked(&copy));
    }
}

pub fn wrong_arguments(bytes: &[u8]) -> Result<(), Error> {
    let mut copy = bytes.to_vec();
    println!("\nwrong arguments");
    let cut = &mut copy[..LENGTH - 1];
    say("init of 879 bytes for 40 items at 87 percent", TableMut::<U64U32>::init(cut, PAIRS, PERCENT));
    for percent in [0, 101] {
        let what = format!("init of 880 bytes for 40 items at {percent} percent");
        say(&what, TableMut::<U64U32>::init(&mut copy, PAIRS, percent));
    }
    println!("the bytes are {}", if copy == bytes { "as they were" } else { "changed" });
    say("bytes_needed for 18446744073709551615 items", bytes_needed::<U64U32>(usize::MAX, PERCENT));
    let mut table = TableMut::<U64U32>::open(&mut copy)?;
    say("insert_all of 3 keys and 2 values", table.insert_all(&[1, 2, 3], &[10, 20]).1);
    let answer = table.as_table().get_all_into(&[1, 2, 3], &mut [0; 3], &mut [0; 2]);
    say("get_all of 3 keys, 3 values and 2 flags", answer);
    Ok(())
}
