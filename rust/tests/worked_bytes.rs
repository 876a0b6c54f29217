//! Bytes, answers and errors that docs/FORMAT.md works out by hand.

use crate::common::configs::{Direct, Plain, U32U32, U64U32};
use crate::common::worked::{changed, header, three_pairs};
use odht::{bytes_needed, Config, HashTable, HashTableOwned};

type View<'b> = HashTable<U64U32, &'b [u8]>;

fn owned<C: Config>(items: usize, percent: u8, pairs: &[(C::Key, C::Value)]) -> HashTableOwned<C> {
    let mut table = HashTableOwned::with_capacity(items, percent);
    for (key, value) in pairs {
        table.insert(key, value);
    }
    table
}

// The numbers of the header that an insert looks at: items, slots and maximum.
fn counts<C: Config>(table: &HashTableOwned<C>) -> (usize, usize, usize) {
    let text = format!("{table:?}");
    let number = |name: &str| -> usize {
        let behind = &text[text.find(name).unwrap() + name.len()..];
        let digits = behind.split(|c: char| !c.is_ascii_digit()).next().unwrap();
        digits.parse().unwrap()
    };
    (number("(item_count="), number("slot_count="), number("max_item_count="))
}

#[test]
fn three_pairs_have_these_bytes() {
    assert_eq!(bytes_needed::<U64U32>(3, 95), 256);
    let pairs = [(1, 2), (3, 4), (5, 6)];
    assert_eq!(owned::<U64U32>(3, 95, &pairs).raw_bytes(), three_pairs());
    let collected = HashTableOwned::<U64U32>::from_iterator(pairs, 95);
    assert_eq!(collected.raw_bytes(), three_pairs());
    let mut view = HashTable::<U64U32, _>::init_in_place(vec![0xa5; 256], 3, 95).unwrap();
    for (key, value) in pairs {
        assert_eq!(view.insert(&key, &value), None);
    }
    assert_eq!(view.raw_bytes(), three_pairs());
}

#[test]
fn three_pairs_answer() {
    let bytes = three_pairs();
    let table = View::from_raw_bytes(&bytes).unwrap();
    assert_eq!(table.len(), 3);
    assert_eq!([1, 3, 5, 7].map(|key| table.get(&key)), [Some(2), Some(4), Some(6), None]);
    assert!(table.contains_key(&3) && !table.contains_key(&7));
    let walk = [(1, 2), (5, 6), (3, 4)];
    assert_eq!(table.iter().collect::<Vec<_>>(), walk);
    assert_eq!((&table).into_iter().collect::<Vec<_>>(), walk);
    assert_eq!(table.raw_bytes(), bytes);
    let owned = HashTableOwned::<U64U32>::from_raw_bytes(&bytes).unwrap();
    assert_eq!((&owned).into_iter().collect::<Vec<_>>(), walk);
    assert_eq!((owned.get(&3), owned.get(&7), owned.len()), (Some(4), None, 3));
    assert!(owned.contains_key(&5) && !owned.contains_key(&4));
}

#[test]
fn the_new_calls_answer() {
    let bytes = three_pairs();
    let table = View::from_raw_bytes(&bytes).unwrap();
    assert_eq!(table.get_counted(&3), (Some(4), 1));
    assert_eq!(table.get_counted(&7), (None, 1));
    let mut values = [Some(9); 4];
    table.get_all(&[7, 5, 3, 1], &mut values);
    assert_eq!(values, [None, Some(6), Some(4), Some(2)]);
    let from = |slot| table.iter_from(slot).collect::<Vec<_>>();
    assert_eq!(from(0), [(5, (1, 2)), (9, (5, 6)), (15, (3, 4))]);
    assert_eq!(from(9), [(9, (5, 6)), (15, (3, 4))]);
    assert_eq!(from(15), [(15, (3, 4))]);
    assert_eq!((from(16), from(usize::MAX)), (vec![], vec![]));
    assert!(table.verify());
    assert_eq!(table.check_all(), Ok(()));
    let owned = HashTableOwned::<U64U32>::from_raw_bytes(&bytes).unwrap();
    let mut order = [0; 3];
    assert!(owned.insert_order(&mut order));
    order.sort_unstable();
    assert_eq!(order, [5, 9, 15]);
}

// The table "Changes" of the worked example.
#[test]
fn changed_bytes_have_these_errors() {
    let opened = |changes: &[(usize, u8)]| {
        let bytes = changed(&three_pairs(), changes);
        let table = View::from_raw_bytes(&bytes).expect("a view opens it");
        assert!(!table.verify());
        table.check_all().unwrap_err().to_string()
    };
    assert_eq!(opened(&[(245, 255)]), "Mirror control byte 5 does not match its slot");
    assert_eq!(opened(&[(8, 4)]), "Header states 4 items but 3 were found");
    assert_eq!(opened(&[(30, 1)]), "Header padding should be zero but is [1, 0]");
    assert_eq!(
        opened(&[(28, 0x8e), (29, 2), (30, 1)]),
        "Load factor field should be at least 655 but is 654"
    );
    let rejected = |bytes: &[u8]| {
        let error = View::from_raw_bytes(bytes).unwrap_err().to_string();
        let owned = HashTableOwned::<U64U32>::from_raw_bytes(bytes);
        assert_eq!(owned.unwrap_err().to_string(), error);
        error
    };
    let change = |at, byte| rejected(&changed(&three_pairs(), &[(at, byte)]));
    assert_eq!(change(32, 7), "Found empty entry with non-zero contents at 0");
    assert_eq!(
        change(92, 3),
        "Control byte does not match hash value for entry 5. Expected 58, found 19."
    );
    let slots = "Slot count of hashtable should be";
    assert_eq!(change(16, 24), format!("{slots} a power of two but is 24"));
    assert_eq!(change(16, 8), format!("{slots} at least 16 but is 8"));
    assert_eq!(
        rejected(&three_pairs()[..255]),
        "Provided allocation has wrong size for slot count 16. \
         The allocation's size is 255 but the expected size is 256."
    );
}

#[test]
fn new_tables_have_these_headers() {
    let percentages =
        [(1, [0x8f, 2]), (6, [0x5c, 0xf]), (87, [0xb7, 0xde]), (95, [0x32, 0xf3]), (100, [255; 2])];
    for (percent, factor) in percentages {
        let table = HashTableOwned::<U32U32>::with_capacity(0, percent);
        let mut expected = header((4, 4), 0, 16, factor);
        expected.resize(160, 0);
        expected.resize(192, 255);
        assert_eq!(table.raw_bytes(), expected);
    }
    assert_eq!(HashTableOwned::<Plain<0, 0>>::default().raw_bytes().len(), 64);
    assert_eq!(counts(&HashTableOwned::<U32U32>::default()), (0, 16, 13));
}

// The rows of "Load factors" whose tables fit into memory.
#[test]
fn new_tables_have_these_slots() {
    let rows = [
        (0, 87, 16, 13),
        (13, 87, 16, 13),
        (14, 87, 32, 27),
        (40, 87, 64, 55),
        (3, 95, 16, 15),
        (15, 100, 16, 15),
        (16, 100, 32, 31),
        (1000, 100, 1024, 1023),
    ];
    for (items, percent, slots, maximum) in rows {
        let table = HashTableOwned::<Direct>::with_capacity(items, percent);
        assert_eq!(counts(&table), (0, slots, maximum));
        assert_eq!(bytes_needed::<Direct>(items, percent), 32 + slots * 8 + slots + 16);
    }
    assert_eq!(bytes_needed::<Plain<0, 0>>(1 << 62, 100), 48 + (1 << 63));
}

// The table of "Growth".
#[test]
fn tables_grow_at_their_maximum() {
    let mut at_six = owned::<Direct>(0, 6, &[]);
    assert_eq!(counts(&at_six), (0, 16, 0));
    assert_eq!(at_six.insert(&7, &1), None);
    assert_eq!(counts(&at_six), (1, 32, 1));
    assert_eq!(at_six.insert(&7, &2), Some(1));
    assert_eq!(counts(&at_six), (1, 32, 1));
    assert_eq!(at_six.insert(&8, &2), None);
    assert_eq!(counts(&at_six), (2, 64, 3));
    assert_eq!(counts(&owned::<Direct>(0, 1, &[(7, 1)])), (1, 128, 1));
    let thirteen: Vec<(u32, u32)> = (0..13).map(|key| (key, key)).collect();
    let mut table = owned::<Direct>(13, 87, &thirteen);
    assert_eq!(table.insert(&12, &99), Some(12));
    assert_eq!(counts(&table), (13, 16, 13));
    assert_eq!(table.insert(&13, &1), None);
    assert_eq!(counts(&table), (14, 32, 27));
}

// Keys 15 and 47 have the home 15 in 16 and in 32 slots. A growth places what is first in slot order first.
#[test]
fn a_growth_places_in_slot_order() {
    let mut table = owned::<Direct>(2, 13, &[(15, 1), (47, 2)]);
    assert_eq!(counts(&table), (2, 16, 2));
    assert_eq!(table.iter().collect::<Vec<_>>(), [(47, 2), (15, 1)]);
    table.insert(&20, &3);
    // 13 percent are 8519 of 65536.
    let mut expected = header((4, 4), 3, 32, [0x47, 0x21]);
    expected.resize(32 + 32 * 8, 0);
    for (slot, key, value) in [(15, 47, 2), (16, 15, 1), (20, 20, 3)] {
        (expected[32 + slot * 8], expected[36 + slot * 8]) = (key, value);
    }
    expected.resize(32 + 32 * 8 + 32 + 16, 255);
    for slot in [15, 16, 20] {
        expected[32 + 32 * 8 + slot] = 0;
    }
    expected[32 + 32 * 8 + 32 + 15] = 0;
    assert_eq!(table.raw_bytes(), expected);
}

// Key 31 has the home 15, which key 15 occupies: it goes to slot 0, and its tag is written twice.
#[test]
fn an_insert_goes_round_the_end() {
    let table = owned::<Direct>(3, 95, &[(15, 1), (31, 2)]);
    assert_eq!(table.raw_bytes()[32..40], [31, 0, 0, 0, 2, 0, 0, 0]);
    let mut control = [255; 32];
    (control[0], control[15], control[16], control[31]) = (0, 0, 0, 0);
    assert_eq!(table.raw_bytes()[160..], control);
}

// 33 keys of the home 0 in 64 slots: the last is in slot 48, and its search reads three groups.
#[test]
fn a_search_reads_these_groups() {
    let pairs: Vec<(u32, u32)> = (0..=32).map(|at| (64 * at, at)).collect();
    let table = owned::<Direct>(40, 87, &pairs);
    let view = HashTable::<Direct, &[u8]>::from_raw_bytes(table.raw_bytes()).unwrap();
    assert_eq!(view.iter_from(32).collect::<Vec<_>>(), [(48, (2048, 32))]);
    assert_eq!(view.get_counted(&2048), (Some(32), 3));
    assert_eq!(table.get_counted(&2048), (Some(32), 3));
    let sixteen = owned::<Direct>(40, 87, &pairs[..16]);
    assert_eq!(sixteen.get_counted(&4096), (None, 2));
}

// 48 keys in 64 slots of which 0 and 1 are in each other's slots, and what is in slot 0 is reached through slot 1.
fn made_by_no_insert() -> Vec<u8> {
    let mut bytes = header((4, 4), 48, 64, [0xb7, 0xde]);
    bytes.resize(32 + 64 * 8, 0);
    bytes.resize(32 + 64 * 8 + 64 + 16, 255);
    for slot in (0..=32).chain(49..64) {
        bytes[32 + slot * 8] = [1, 0].get(slot).copied().unwrap_or(slot as u8);
        bytes[32 + 64 * 8 + slot] = 0;
    }
    bytes[32 + 64 * 8 + 64..].fill(0);
    bytes
}

#[test]
fn valid_is_wider_than_made_by_inserts() {
    let bytes = made_by_no_insert();
    let view = HashTable::<Direct, &[u8]>::from_raw_bytes(&bytes).unwrap();
    assert_eq!(view.check_all(), Ok(()));
    assert_eq!(view.get_counted(&1), (Some(0), 3));
    let owned = HashTableOwned::<Direct>::from_raw_bytes(&bytes).unwrap();
    assert!(!owned.insert_order(&mut [0; 48]));
    assert!((0..=32).chain(49..64).all(|key| owned.get(&key) == Some(0)));
}

// Key 5 alone in slot 6, behind its free home: a search by groups meets it all the same.
#[test]
fn a_key_behind_a_free_slot_is_unreachable() {
    let mut bytes = header((4, 4), 1, 16, [0xb7, 0xde]);
    bytes.resize(160, 0);
    bytes[32 + 6 * 8] = 5;
    bytes.resize(192, 255);
    (bytes[166], bytes[182]) = (0, 0);
    let view = HashTable::<Direct, &[u8]>::from_raw_bytes(&bytes).unwrap();
    assert_eq!(view.get(&5), Some(0));
    let error = view.check_all().unwrap_err().to_string();
    assert_eq!(error, "Key in slot 6 is not reachable by its search");
    assert!(!view.verify());
}

#[test]
fn a_view_at_its_maximum_takes_present_keys_alone() {
    let thirteen: Vec<(u32, u32)> = (0..13).map(|key| (key, key)).collect();
    let mut bytes = owned::<Direct>(13, 87, &thirteen).raw_bytes().to_vec();
    let before = bytes.clone();
    let mut view = HashTable::<Direct, &mut [u8]>::from_raw_bytes(&mut bytes).unwrap();
    let full = view.try_insert(&13, &1).unwrap_err();
    assert_eq!(full.to_string(), "Table is full");
    assert_eq!(view.raw_bytes(), before);
    assert_eq!(view.insert(&12, &99), Some(12));
    let expected = changed(&before, &[(32 + 12 * 8 + 4, 99)]);
    assert_eq!(view.raw_bytes(), expected);
}

#[test]
fn dumps_have_these_lines() {
    let table = owned::<U32U32>(12, 87, &[(1, 2)]);
    let text = format!("{table:?}");
    let lines: Vec<&str> = text.split('\n').collect();
    assert_eq!(lines.len(), 21);
    assert_eq!(lines[0], "(item_count=1, max_item_count=13, max_load_factor=86%)");
    let (name, end) = lines[1].split_at("RawTable (slot_count=16, hash_fn=".len());
    assert_eq!(name, "RawTable (slot_count=16, hash_fn=");
    assert!(end.ends_with("FxHashFn) {"), "{end}");
    for slot in 0..16 {
        let empty = format!("slot {slot}: empty");
        let filled = "slot 5: key=[1, 0, 0, 0], value=[2, 0, 0, 0], control_byte=19";
        assert_eq!(lines[2 + slot], if slot == 5 { filled } else { &empty });
    }
    assert_eq!(lines[18..], ["}", "", ""]);
}
