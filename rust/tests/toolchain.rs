//! The tables in a Rust toolchain: rustc keeps with each crate's metadata a table from the hash of a definition's
//! path to the definition's index, with the original crate. Each is opened, checked, searched, and made again byte
//! for byte.

use odht::{check_all, check_all_within, DEFAULT_GROUPS};
use odht::{Config, HashTable, HashTableOwned, UnHashFn};
use std::io::BufRead;
use std::path::{Path, PathBuf};
use std::process::Command;

/// The configuration of rustc: the last four bytes of a hash are the table's hash of it.
struct Definitions;

impl Config for Definitions {
    type Key = u64;
    type Value = u32;
    type EncodedKey = [u8; 8];
    type EncodedValue = [u8; 4];
    type H = UnHashFn;

    fn encode_key(hash: &u64) -> [u8; 8] {
        hash.to_le_bytes()
    }
    fn encode_value(index: &u32) -> [u8; 4] {
        index.to_le_bytes()
    }
    fn decode_key(hash: &[u8; 8]) -> u64 {
        u64::from_le_bytes(*hash)
    }
    fn decode_value(index: &[u8; 4]) -> u32 {
        u32::from_le_bytes(*index)
    }
}

// The folder of the toolchain's libraries, where there is a toolchain.
fn libraries() -> Option<PathBuf> {
    let printed = Command::new("rustc").args(["--print", "sysroot"]).output().ok()?;
    let folder = Path::new(String::from_utf8(printed.stdout).ok()?.trim()).join("lib/rustlib");
    folder.is_dir().then_some(folder)
}

// The files of metadata in a folder and those below it.
fn metadata(folder: &Path) -> Vec<PathBuf> {
    let entries = std::fs::read_dir(folder).into_iter().flatten().flatten();
    let (folders, files): (Vec<PathBuf>, Vec<PathBuf>) =
        entries.map(|entry| entry.path()).partition(|path| path.is_dir());
    let is_metadata =
        |path: &PathBuf| path.extension().is_some_and(|end| end == "rmeta" || end == "rlib");
    let below = folders.iter().flat_map(|folder| metadata(folder));
    files.into_iter().filter(is_metadata).chain(below).collect()
}

// The tables of this configuration in some bytes: behind each header tag, those whose lengths of keys and values,
// version and slot count are right.
fn tables(bytes: &[u8]) -> Vec<&[u8]> {
    let (mut tables, mut rest, mut before) = (Vec::new(), bytes, Vec::new());
    while rest.read_until(b'T', &mut before).unwrap() > 0 {
        before.clear();
        let Some(at) = (bytes.len() - rest.len()).checked_sub(4) else {
            continue;
        };
        let table = &bytes[at..];
        if table.len() < 32
            || &table[..8] != b"ODHT\x01\x08\x04\x20"
            || table[24..28] != [0, 0, 0, 2]
        {
            continue;
        }
        let slots = u64::from_le_bytes(table[16..24].try_into().unwrap());
        let length = usize::try_from(slots).ok().and_then(|slots| slots.checked_mul(13));
        tables.extend(length.and_then(|length| table.get(..length + 48)));
    }
    tables
}

fn is_read(bytes: &[u8]) {
    assert_eq!(check_all::<Definitions>(bytes), Ok(()));
    assert_eq!(check_all_within::<Definitions>(bytes, DEFAULT_GROUPS), Ok(()));
    let table = HashTable::<Definitions, _>::from_raw_bytes(bytes).unwrap();
    assert!(table.verify_within(DEFAULT_GROUPS) && table.searches_within(DEFAULT_GROUPS));
    let (keys, indices): (Vec<u64>, Vec<u32>) = table.iter().unzip();
    assert_eq!(keys.len(), table.len());
    let mut values = vec![None; keys.len()];
    table.get_all(&keys, &mut values);
    for ((key, index), found) in keys.iter().zip(&indices).zip(values) {
        assert_eq!((table.get(key), found), (Some(*index), Some(*index)));
    }
    // Each definition has one hash, and the indices are dense.
    let mut sorted = indices.clone();
    sorted.sort_unstable();
    assert!(sorted.into_iter().eq(0..indices.len() as u32));
}

// By the order of inserts that is found, and as rustc does: definition by definition, into a table that grows.
fn is_made_again(bytes: &[u8]) {
    let table = HashTableOwned::<Definitions>::from_raw_bytes(bytes).unwrap();
    let mut order = vec![0; table.len()];
    assert!(table.insert_order(&mut order));
    let mut in_order = HashTableOwned::<Definitions>::with_capacity(table.len(), 87);
    let place = |slot: usize| 32 + slot * 12;
    for slot in order {
        let key = u64::from_le_bytes(bytes[place(slot)..][..8].try_into().unwrap());
        let index = u32::from_le_bytes(bytes[place(slot) + 8..][..4].try_into().unwrap());
        assert_eq!(in_order.insert(&key, &index), None);
    }
    assert!(in_order.raw_bytes() == bytes);
    let mut definitions: Vec<(u64, u32)> = table.iter().collect();
    definitions.sort_unstable_by_key(|(_, index)| *index);
    let mut growing = HashTableOwned::<Definitions>::default();
    for (hash, index) in definitions {
        assert_eq!(growing.insert(&hash, &index), None);
    }
    assert!(growing.raw_bytes() == bytes);
}

#[test]
fn the_tables_of_a_toolchain() {
    let Some(folder) = libraries() else {
        return println!("skipped: there is no Rust toolchain here");
    };
    let mut count = 0;
    for file in metadata(&folder) {
        let bytes = std::fs::read(&file).unwrap();
        for table in tables(&bytes) {
            println!("{}: {} bytes", file.display(), table.len());
            is_read(table);
            is_made_again(table);
            count += 1;
        }
    }
    if count == 0 {
        return println!("skipped: the libraries of this Rust toolchain have no tables");
    }
    println!("{count} tables");
}
