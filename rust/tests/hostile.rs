//! Bytes that are not, or may not be, those of a table. Opening, the whole check and the owned table say of them what a
//! second reading says; each call on what is opened returns, and stays in the frame of docs/FORMAT.md.

use crate::common::frame::{calls_stay_in_frame, format, Named};
use crate::common::random::Random;
use crate::common::reading::Reading;
use crate::common::worked::{changed, header, three_pairs};
use crate::common::writing::Writing;
use odht::{FxHashFn, UnHashFn};
use std::collections::BTreeMap;

#[test]
fn each_header_byte_at_each_value() {
    let bytes = three_pairs();
    let mut random = Random(1);
    for (at, byte) in (0..32).flat_map(|at| (0..=255).map(move |byte| (at, byte))) {
        calls_stay_in_frame::<8, 4, FxHashFn>(&changed(&bytes, &[(at, byte)]), &mut random);
    }
}

#[test]
fn each_cut_and_some_bytes_more() {
    let mut bytes = three_pairs();
    bytes.extend([0; 40]);
    for length in 0..bytes.len() {
        let error = calls_stay_in_frame::<8, 4, FxHashFn>(&bytes[..length], &mut Random(2));
        assert_eq!(error.is_none(), length == 256);
    }
}

fn forged_slot_counts<const K: usize, const V: usize>() {
    let near = |power: u32| [-1_i128, 0, 1].map(|more| ((1_i128 << power) + more) as u64);
    for slots in (0..64).flat_map(near) {
        let mut lengths = vec![0, 31, 32, 47, 48, 64, 192];
        // What the length is in 64 bits that wrap.
        let product = slots.wrapping_mul((K + V + 1) as u64).wrapping_add(48);
        lengths.extend(usize::try_from(product).ok().filter(|it| *it < 1 << 12));
        for length in lengths {
            let mut bytes = header((K as u8, V as u8), 0, slots, [0xb7, 0xde]);
            bytes.resize(length, 255);
            calls_stay_in_frame::<K, V, FxHashFn>(&bytes, &mut Random(slots));
        }
    }
}

#[test]
fn slot_counts_are_not_believed() {
    forged_slot_counts::<0, 0>();
    forged_slot_counts::<1, 0>();
    forged_slot_counts::<2, 1>();
    forged_slot_counts::<8, 4>();
    forged_slot_counts::<255, 0>();
    forged_slot_counts::<255, 255>();
}

// No slot is free: a search of an absent key ends after all groups.
#[test]
fn a_table_without_a_free_slot() {
    for slots in [16, 64, 256] {
        let mut table = Writing::with_slots(format::<4, 4, UnHashFn>(), slots, 65535);
        for number in 0..slots as u32 {
            table.put(&number.to_le_bytes(), &[7; 4]).expect("a free slot");
        }
        let error = calls_stay_in_frame::<4, 4, UnHashFn>(&table.bytes, &mut Random(3));
        assert!(error.unwrap().ends_with("are allowed"));
    }
}

// A valid table of up to 60 items. The keys of some have few homes.
fn some_table<const K: usize, const V: usize, H: Named>(random: &mut Random) -> Vec<u8> {
    let percent = [1, 50, 87, 100][random.below(4)];
    let mut table = Writing::new(format::<K, V, H>(), random.below(20), percent);
    let mask = if random.comes(50) { 0xff } else { 0x13 };
    for _ in 0..random.below(60) {
        let key = random.array::<K>().map(|byte| byte & mask);
        table.insert(&key, &random.array::<V>());
        if table.bytes.len() > 3000 {
            break;
        }
    }
    table.bytes
}

// Up to eight bytes are changed, of which most are in the header, the control bytes or the mirror; some tables are cut
// or lengthened.
fn change(bytes: &mut Vec<u8>, entry: usize, random: &mut Random) {
    let slots = u64::from_le_bytes(bytes[16..24].try_into().unwrap()) as usize;
    let control = 32 + slots * entry;
    for _ in 0..random.below(9) {
        let at = match random.below(8) {
            0 => random.below(32),
            1 => [8, 9, 28, 29, 30, 31][random.below(6)],
            2 | 3 => control + random.below(slots),
            4 => control + slots + random.below(16),
            5 => control + random.below(16),
            _ => random.below(bytes.len()),
        };
        bytes[at] = match random.below(5) {
            0 => 255,
            1 => random.byte() & 127,
            2 => bytes[control + random.below(slots)],
            _ => random.byte(),
        };
    }
    match random.below(20) {
        0 => bytes.truncate(random.below(bytes.len())),
        1 => bytes.extend(random.array::<5>()),
        2 => bytes[control..].fill(random.byte() & 127),
        _ => {}
    }
}

type Kinds = BTreeMap<String, usize>;

fn changed_tables<const K: usize, const V: usize, H: Named>(count: usize, kinds: &mut Kinds) {
    let mut random = Random((K * 1000 + V) as u64);
    for _ in 0..count {
        let mut bytes = some_table::<K, V, H>(&mut random);
        change(&mut bytes, K + V, &mut random);
        let error = calls_stay_in_frame::<K, V, H>(&bytes, &mut random);
        let reading = Reading::new(format::<K, V, H>(), &bytes);
        let is_opened = reading.open_error().is_none();
        *kinds.entry(format!("opened {is_opened}")).or_default() += 1;
        for groups in [1, 2] {
            let is_longer = reading.error_within(&error, groups) != error;
            *kinds.entry(format!("longer than {groups}: {is_longer}")).or_default() += 1;
        }
        let first_words = error.map(|it| it.split(' ').take(2).collect::<Vec<_>>().join(" "));
        *kinds.entry(first_words.unwrap_or_default()).or_default() += 1;
    }
}

// Each kind of error has to be met, so that none goes untested: the begins of the texts, of which those of two errors
// about slot counts, and of two about item counts, are the same. Unreachable keys are met by the last test.
const BEGINS: [&str; 14] = [
    "",
    "Provided data",
    "Expected header",
    "Expected file",
    "Expected size",
    "Slot count",
    "Provided allocation",
    "Found empty",
    "Control byte",
    "Load factor",
    "Header padding",
    "Free slot",
    "Mirror control",
    "Header states",
];

#[test]
fn changed_tables_do_no_harm() {
    let mut kinds = Kinds::new();
    changed_tables::<4, 4, FxHashFn>(900, &mut kinds);
    changed_tables::<8, 4, FxHashFn>(900, &mut kinds);
    changed_tables::<4, 4, UnHashFn>(900, &mut kinds);
    changed_tables::<16, 8, UnHashFn>(500, &mut kinds);
    changed_tables::<2, 0, FxHashFn>(400, &mut kinds);
    changed_tables::<1, 3, FxHashFn>(300, &mut kinds);
    changed_tables::<0, 0, FxHashFn>(100, &mut kinds);
    let at_least =
        |kind: &str, count| assert!(kinds.get(kind) >= Some(&count), "{kind}: {kinds:?}");
    BEGINS.iter().for_each(|kind| at_least(kind, 5));
    at_least("opened true", 1000);
    at_least("opened false", 1000);
    at_least("longer than 1: true", 50);
    at_least("longer than 2: true", 10);
}

// One pair is moved to another slot, or stored there again, and nothing else is wrong: the whole
// check alone tells whether it is still reached.
#[test]
fn moved_and_repeated_keys() {
    let (mut random, mut unreachable) = (Random(4), 0);
    for _ in 0..500 {
        let bytes = some_table::<4, 4, UnHashFn>(&mut random);
        let table = Writing { format: format::<4, 4, UnHashFn>(), bytes };
        let occupied: Vec<usize> = table.reading().occupied().collect();
        let free = (0..table.reading().slots()).find(|slot| !table.reading().is_occupied(*slot));
        let (Some(free), false) = (free, occupied.is_empty()) else {
            continue;
        };
        let from = occupied[random.below(occupied.len())];
        let bytes = with_slot_copied(&table, from, free, random.comes(50));
        let error = calls_stay_in_frame::<4, 4, UnHashFn>(&bytes, &mut random);
        unreachable += usize::from(error.is_some_and(|it| it.starts_with("Key in slot")));
    }
    assert!(unreachable > 100, "{unreachable}");
}

// The table with the pair of one slot in another too, or only there.
fn with_slot_copied(table: &Writing, from: usize, to: usize, is_moved: bool) -> Vec<u8> {
    let reading = table.reading();
    let mut bytes = table.bytes.clone();
    let length = table.format.key + table.format.value;
    let entry = bytes[reading.entry_at(from)..][..length].to_vec();
    bytes[reading.entry_at(to)..][..length].copy_from_slice(&entry);
    bytes[reading.control_at(to)] = reading.control(from);
    if is_moved {
        bytes[reading.entry_at(from)..][..length].fill(0);
        bytes[reading.control_at(from)] = 255;
    } else {
        bytes[8..16].copy_from_slice(&(reading.count() as u64 + 1).to_le_bytes());
    }
    let control = reading.control_at(0);
    bytes.copy_within(control..control + 16, control + reading.slots());
    bytes
}
