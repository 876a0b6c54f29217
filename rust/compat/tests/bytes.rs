//! The bytes of the tables, worked out by hand from docs/FORMAT.md of the repository. They are the same whichever
//! crate the dependency names.

use compat::definitions::{collect, hashes, Index, Map, PathHash};
use compat::first_table::{build, look_up, Numbers};
use compat::in_place::{
    add_all, count_of, encoded, error_of, open_again, own_again, set_of, twice, Sum, Words,
};
use odht::{HashFn, HashTable, HashTableOwned};
use std::rc::Rc;

// A header of so many items in sixteen slots.
fn header(key: u8, value: u8, items: u8, factor: [u8; 2]) -> Vec<u8> {
    let mut bytes = vec![0x4f, 0x44, 0x48, 0x54, 1, key, value, 0x20];
    bytes.extend_from_slice(&[items, 0, 0, 0, 0, 0, 0, 0, 16, 0, 0, 0, 0, 0, 0, 0]);
    bytes.extend_from_slice(&[0, 0, 0, 2, factor[0], factor[1], 0, 0]);
    bytes
}

// A table of sixteen slots: the entries of some slots, each with its tag.
fn table(header: Vec<u8>, entries: &[(usize, &[u8], u8)]) -> Vec<u8> {
    let length = usize::from(header[5]) + usize::from(header[6]);
    let mut bytes = header;
    bytes.resize(32 + 16 * length, 0);
    bytes.resize(32 + 16 * length + 32, 255);
    for (slot, entry, tag) in entries {
        bytes[32 + slot * length..][..length].copy_from_slice(entry);
        bytes[32 + 16 * length + slot] = *tag;
        bytes[32 + 16 * length + 16 + slot] = *tag;
    }
    bytes
}

// 95 percent are 62258 of 65536. The hashes are 0x27220a95, 0x75661fbf and 0xc3aa34e9.
#[test]
fn the_first_table() {
    let entries: [(usize, &[u8], u8); 3] = [
        (5, &[1, 0, 0, 0, 0, 0, 0, 0, 2, 0, 0, 0], 0x13),
        (9, &[5, 0, 0, 0, 0, 0, 0, 0, 6, 0, 0, 0], 0x61),
        (15, &[3, 0, 0, 0, 0, 0, 0, 0, 4, 0, 0, 0], 0x3a),
    ];
    let expected = table(header(8, 4, 3, [0x32, 0xf3]), &entries);
    assert_eq!(build(), expected);
    assert_eq!(look_up(&expected, &[1, 3, 5, 7]), [Some(2), Some(4), Some(6), None]);
}

// 87 percent are 57015 of 65536. The hash is the upper half: of the first 0x02000001, so slot 1 and tag 1; of the
// second 0xfe000001, so slot 1 again, which is occupied, hence slot 2, and tag 127.
#[test]
fn definitions_are_kept() {
    let paths = [PathHash(0x0200_0001_0000_0009), PathHash(0xfe00_0001_0000_0007)];
    let map = collect(paths.iter().copied());
    let entries: [(usize, &[u8], u8); 2] = [
        (1, &[9, 0, 0, 0, 1, 0, 0, 2, 0, 0, 0, 0], 1),
        (2, &[7, 0, 0, 0, 1, 0, 0, 0xfe, 1, 0, 0, 0], 127),
    ];
    let expected = table(header(8, 4, 2, [0xb7, 0xde]), &entries);
    assert_eq!(map.raw_bytes(), &expected[..]);
    let mut metadata = vec![1, 2, 3];
    Map::Compiled(&map).write(&mut metadata);
    assert_eq!(metadata[..11], [1, 2, 3, 0, 1, 0, 0, 0, 0, 0, 0]);
    assert_eq!(metadata[11..], expected[..]);
    let read = Map::read(&Rc::new(metadata), 3);
    assert_eq!(read.index_of(&paths[1]), Some(Index(1)));
    assert_eq!(read.index_of(&PathHash(0x0200_0001_0000_0008)), None);
    assert_eq!(read.sorted(), [(Index(0), paths[0]), (Index(1), paths[1])]);
}

#[test]
fn many_definitions_are_read_in_metadata() {
    let map = collect(hashes(10_000));
    // From 16 slots on, whose maximum is 13, each growth doubles; 16,384 slots have the maximum 14,253.
    assert_eq!(map.raw_bytes().len(), 32 + 16384 * 13 + 16);
    let mut metadata = Vec::new();
    Map::Compiled(&map).write(&mut metadata);
    let read = Map::read(&Rc::new(metadata), 0);
    for (index, hash) in hashes(10_000).enumerate() {
        assert_eq!(read.index_of(&hash), Some(Index(index as u32)));
        assert_eq!(Map::Compiled(&map).index_of(&hash), Some(Index(index as u32)));
    }
    assert_eq!(read.sorted().len(), 10_000);
    assert_eq!(read.index_of(&PathHash(5)), None);
}

// 80 percent are 52428 of 65536. "on" and "no" have the sum 221, 0xdd: slot 13, and the tag 0xdddddddd >> 25, which
// is 110. The second goes to slot 14. "a" is 97, 0x61: slot 1, and the tag 0x61616161 >> 25, which is 48.
#[test]
fn a_set_with_a_hash_function_of_its_own() {
    let entries: [(usize, &[u8], u8); 3] =
        [(13, b"on\0\0\0\0\0", 110), (14, b"no\0\0\0\0\0", 110), (1, b"a\0\0\0\0\0\0", 48)];
    let expected = table(header(7, 0, 3, [0xcc, 0xcc]), &entries);
    assert_eq!(set_of(&["on", "no", "a"]).unwrap(), expected);
    assert_eq!(Sum::hash(b"on"), 0xdddd_dddd);
    let set = HashTable::<Words, &[u8]>::from_raw_bytes(&expected).unwrap();
    let words: Vec<String> = ["no", "an", "a"].iter().map(|word| word.to_string()).collect();
    assert_eq!(count_of(&set, &words), 2);
    assert_eq!(encoded(set.iter()), [*b"a\0\0\0\0\0\0", *b"on\0\0\0\0\0", *b"no\0\0\0\0\0"]);
}

#[test]
fn tables_are_opened_again() {
    let bytes = build();
    // SAFETY: they are those of a table of this configuration.
    let (view, mut owned) =
        unsafe { (open_again::<Numbers>(&bytes), own_again::<Numbers>(&bytes)) };
    assert_eq!((view.len(), owned.len()), (3, 3));
    assert_eq!(owned.insert(&7, &8), None);
    let copy = view.raw_bytes().to_vec();
    let mut other = HashTable::<Numbers, Vec<u8>>::from_raw_bytes(copy).unwrap();
    add_all(&mut other, &owned);
    assert_eq!(other.raw_bytes(), owned.raw_bytes());
    assert_eq!((other.get(&7), view.get(&7)), (Some(8), None));
}

#[test]
fn errors_have_their_texts() {
    assert_eq!(error_of::<Numbers>(&build()), None);
    let of = |at: usize, byte: u8| {
        let mut bytes = build();
        bytes[at] = byte;
        error_of::<Numbers>(&bytes).unwrap()
    };
    assert_eq!(of(0, 80), "Expected header tag [79, 68, 72, 84] but found [80, 68, 72, 84]");
    assert_eq!(of(27, 1), "Expected file format version [0, 0, 0, 2] but found [0, 0, 0, 1]");
    assert_eq!(of(32, 7), "Found empty entry with non-zero contents at 0");
    assert_eq!(
        of(92, 3),
        "Control byte does not match hash value for entry 5. Expected 58, found 19."
    );
    let made = HashTable::<Numbers, Vec<u8>>::init_in_place(vec![0; 255], 3, 95);
    let text = "byte slice to initialize has wrong length (255 instead of 256)";
    assert_eq!(made.err().unwrap().to_string(), text);
}

#[derive(Clone, Copy)]
struct Bytes;

impl odht::Config for Bytes {
    type Key = u8;
    type Value = u8;
    type EncodedKey = [u8; 1];
    type EncodedValue = [u8; 1];
    type H = odht::FxHashFn;
    fn encode_key(k: &u8) -> [u8; 1] {
        [*k]
    }
    fn encode_value(v: &u8) -> [u8; 1] {
        [*v]
    }
    fn decode_key(k: &[u8; 1]) -> u8 {
        k[0]
    }
    fn decode_value(v: &[u8; 1]) -> u8 {
        v[0]
    }
}

#[test]
fn tables_are_copied() {
    let table = HashTableOwned::<Bytes>::from_iterator((0..9).map(|byte| (byte, byte + 1)), 50);
    let copy = table.clone();
    let views = twice(HashTable::<Bytes, &[u8]>::from_raw_bytes(copy.raw_bytes()).unwrap());
    assert!(views.iter().all(|view| view.get(&8) == Some(9)));
    assert_eq!(format!("{:?}", table), format!("{:?}", copy));
    // 50 percent are 32767 of 65536: 32 slots, of which 15 may be occupied.
    let first = "(item_count=9, max_item_count=15, max_load_factor=49%)";
    assert_eq!(format!("{:?}", table).lines().next(), Some(first));
}
