//! Bytes that are opened without a check, and are not those of a table: opening panics where their length is not that
//! of their slot count; else each call returns or panics, and is no danger to memory.

use crate::common::configs::Plain;
use crate::common::frame::{format, Named};
use crate::common::outcomes::outcome;
use crate::common::random::Random;
use crate::common::writing::Writing;
use odht::{FxHashFn, HashTable, HashTableOwned, UnHashFn};

// Random bytes, or a table with its slot count, its length and other bytes changed. The item count stays small, so
// that no growth asks for much memory.
fn bytes<const K: usize, const V: usize, H: Named>(random: &mut Random) -> Vec<u8> {
    let slots = 16 << random.below(3);
    let mut table = Writing::with_slots(format::<K, V, H>(), slots, random.number() as u16);
    for _ in 0..random.below(slots + 1) {
        table.put(&random.array::<K>(), &random.array::<V>());
    }
    let mut bytes = table.bytes;
    match random.below(6) {
        0 => bytes.iter_mut().for_each(|byte| *byte = random.byte()),
        1 => bytes[32..].fill(random.byte() & 127),
        _ => {}
    }
    let near = (1_u64 << random.below(64)).wrapping_add(random.number() % 3).wrapping_sub(1);
    let slots = [near, random.number() % 70, slots as u64][random.below(3)];
    bytes[16..24].copy_from_slice(&slots.to_le_bytes());
    bytes[8..16].copy_from_slice(&(random.number() % 300).to_le_bytes());
    if random.comes(30) {
        bytes.truncate(random.below(bytes.len()));
    }
    bytes
}

const OTHER_LENGTH: &str = "the length of the bytes is not that of the slot count in their header";

fn ignore<T>(_: T) {}

fn view<const K: usize, const V: usize, H: Named>(bytes: &mut [u8], random: &mut Random) {
    let keys: Vec<[u8; K]> = (0..9).map(|_| random.array()).collect();
    let items: Vec<([u8; K], [u8; V])> = keys.iter().map(|key| (*key, random.array())).collect();
    // SAFETY: any bytes may be opened so, by the documentation of the call.
    let opened =
        outcome(|| unsafe { HashTable::<Plain<K, V, H>, _>::from_raw_bytes_unchecked(bytes) });
    let Some(mut table) = opened.map_err(|words| assert_eq!(words, OTHER_LENGTH)).ok() else {
        return;
    };
    let calls: [&dyn Fn(); 9] = [
        &|| ignore(table.get(&keys[0])),
        &|| ignore(table.get_counted(&keys[1])),
        &|| table.get_all(&keys, &mut [None; 9]),
        &|| ignore(table.iter().count()),
        &|| ignore(table.iter_from(7).count()),
        &|| ignore((table.len(), table.is_empty(), format!("{table:?}"))),
        &|| ignore(table.verify()),
        &|| ignore(table.check_all()),
        &|| {
            let length = table.grown_len().filter(|it| *it < 1 << 16);
            table.grow_into(&mut vec![0; length.unwrap_or(0)]);
        },
    ];
    for call in calls {
        let _ = outcome(call);
    }
    let _ = outcome(|| table.try_insert(&keys[2], &items[2].1));
    let _ = outcome(|| table.try_insert_all(&items));
    let _ = outcome(|| table.iter().count());
}

// Whether the bytes are opened.
fn owned<const K: usize, const V: usize, H: Named>(bytes: &[u8], random: &mut Random) -> bool {
    let keys: Vec<[u8; K]> = (0..9).map(|_| random.array()).collect();
    let items: Vec<([u8; K], [u8; V])> = keys.iter().map(|key| (*key, random.array())).collect();
    // SAFETY: as in `view`.
    let opened =
        outcome(|| unsafe { HashTableOwned::<Plain<K, V, H>>::from_raw_bytes_unchecked(bytes) });
    let Some(mut table) = opened.map_err(|words| assert_eq!(words, OTHER_LENGTH)).ok() else {
        return false;
    };
    let calls: [&dyn Fn(); 5] = [
        &|| ignore((table.get(&keys[0]), table.get_counted(&keys[1]))),
        &|| table.get_all(&keys, &mut [None; 9]),
        &|| ignore((table.iter().count(), table.iter_from(3).count())),
        &|| ignore(format!("{table:?}")),
        &|| ignore(table.clone().len()),
    ];
    for call in calls {
        let _ = outcome(call);
    }
    // Where the header states more items than there are, the order has no room to be written.
    let end = outcome(|| table.insert_order(&mut vec![1 << 40; table.len()]));
    assert!(!end.is_err_and(|words| words.contains("overflow") || words.contains("bounds")));
    let scratch = &mut vec![1 << 40; table.insert_order_scratch()];
    let end = outcome(|| table.insert_order_with(&mut vec![1 << 40; table.len()], scratch));
    assert!(!end.is_err_and(|words| words.contains("overflow") || words.contains("bounds")));
    let _ = outcome(|| table.try_insert_all(&items));
    for (key, value) in &items {
        let _ = outcome(|| table.try_insert(key, value));
    }
    let _ = outcome(|| table.iter().count());
    true
}

fn unchecked<const K: usize, const V: usize, H: Named>(count: usize) {
    let (mut random, mut opened) = (Random((K * 300 + V) as u64), 0);
    for _ in 0..count {
        let mut bytes = bytes::<K, V, H>(&mut random);
        opened += usize::from(owned::<K, V, H>(&bytes, &mut random));
        view::<K, V, H>(&mut bytes, &mut random);
    }
    assert!(opened > count / 10 && opened < count, "{opened}");
}

#[test]
fn any_bytes_do_no_harm() {
    unchecked::<4, 4, FxHashFn>(600);
    unchecked::<8, 4, UnHashFn>(400);
    unchecked::<1, 0, FxHashFn>(300);
    unchecked::<0, 0, FxHashFn>(300);
}
