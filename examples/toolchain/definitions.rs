//! Finds the tables of the Rust compiler in files of its metadata. Each table maps hashes of definitions, of 8 bytes,
//! to their indices. The program checks each table, looks up each of its keys, and makes its bytes again with inserts.
//! It prints a line for each table: its offset, its length, its number of items and its slot count.

use odht::configs::Bytes8ToU32;
use odht::{HashTable, HashTableOwned, DEFAULT_GROUPS};

/// The lengths in bytes of the header, and of a key with its value.
const HEADER: usize = 32;
const ENTRY: usize = 12;

/// Inserts the pairs into an empty table in the order that `insert_order` returns.
fn make_again(bytes: &[u8]) {
    let table = HashTableOwned::<Bytes8ToU32>::try_from_raw_bytes(bytes).expect("valid bytes");
    let mut slots = vec![0; table.len()];
    assert!(table.insert_order(&mut slots), "some inserts make the table");
    let mut again = HashTableOwned::<Bytes8ToU32>::with_capacity(table.len(), 87);
    for slot in slots {
        let entry = &bytes[HEADER + slot * ENTRY..][..ENTRY];
        let key = entry[..8].try_into().expect("a key of 8 bytes");
        let value = u32::from_le_bytes(entry[8..].try_into().expect("a value of 4 bytes"));
        assert_eq!(again.insert(&key, &value), None);
    }
    assert!(again.raw_bytes() == bytes, "the inserts make the same bytes");
}

/// Reads and checks the table at the start of the bytes. Returns its length, if there is one.
fn read_table(front: &[u8], offset: usize) -> Option<usize> {
    let (table, rest) = HashTable::<Bytes8ToU32, &[u8]>::open_prefix(front).ok()?;
    if !table.verify() {
        return None;
    }
    assert!(table.searches_within(DEFAULT_GROUPS), "a search is longer than the default bound");
    for (key, value) in table.iter() {
        assert_eq!(table.get(&key), Some(value));
    }
    let bytes = &front[..front.len() - rest.len()];
    make_again(bytes);
    let slots = (bytes.len() - HEADER - 16) / (ENTRY + 1);
    println!("{offset} {} {} {slots}", bytes.len(), table.len());
    Some(bytes.len())
}

fn main() {
    for name in std::env::args().skip(1) {
        let bytes = std::fs::read(name).expect("the file can be read");
        let mut at = 0;
        while let Some(ahead) = bytes[at..].iter().position(|&byte| byte == b'O') {
            at += ahead;
            at += read_table(&bytes[at..], at).unwrap_or(1);
        }
    }
}
