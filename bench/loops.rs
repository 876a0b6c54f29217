//! Loops that do only what a job on the table's bytes cannot do without: its loads and stores, at slots that are known.

use std::arch::x86_64::{_mm_loadu_si128, _mm_movemask_epi8};
use std::collections::HashMap;
use std::convert::identity;

use crate::library::u64_u32;
use crate::ours::Calls;
use crate::work::Work;

pub const HEADER: usize = 32;

/// Keys whose entries have `N` bytes.
pub trait Stored<const N: usize>: Calls {
    fn table_hash(&self) -> u32;
    fn entry(&self, value: u32) -> [u8; N];
    fn pair(entry: &[u8; N]) -> (Self, u32);
}

macro_rules! stored {
    ($key:ty, $len:literal, $size:literal, $word:ident => $hash:expr, $encode:path, $decode:path) => {
        impl Stored<$size> for $key {
            #[inline(always)]
            fn table_hash(&self) -> u32 {
                let $word = *self;
                $hash
            }

            #[inline(always)]
            fn entry(&self, value: u32) -> [u8; $size] {
                let mut entry = [0; $size];
                entry[..$len].copy_from_slice(&$encode(*self));
                entry[$len..].copy_from_slice(&value.to_le_bytes());
                entry
            }

            #[inline(always)]
            fn pair(entry: &[u8; $size]) -> ($key, u32) {
                let (key, value) = entry.split_first_chunk().expect("a key");
                (
                    $decode(*key),
                    u32::from_le_bytes(value.try_into().expect("a value")),
                )
            }
        }
    };
}

stored!(u64, 8, 12, key => key.wrapping_mul(0x517c_c1b7_2722_0a95) as u32, u64::to_le_bytes, u64::from_le_bytes);
stored!([u8; 16], 16, 20, key => u128::from_le_bytes(key).wrapping_shr(96) as u32, identity, identity);

/// The entries, and the control bytes behind them.
pub fn parts<const N: usize>(table: &mut [u8]) -> (&mut [[u8; N]], &mut [u8]) {
    let slots = (table.len() - HEADER - 16) / (N + 1);
    let (entries, controls) = table[HEADER..].split_at_mut(slots * N);
    (entries.as_chunks_mut().0, controls)
}

/// The slot of each key.
fn slots<K: Stored<N>, const N: usize>(table: &mut [u8]) -> HashMap<u64, usize> {
    let (entries, controls) = parts(table);
    let places = entries
        .iter()
        .zip(controls)
        .enumerate()
        .filter(|(_, (_, control))| **control < 128);
    places
        .map(|(slot, (entry, _))| (K::pair(entry).0.number(), slot))
        .collect()
}

/// Lists the slot of each query.
pub fn look_at_slots<K: Stored<N>, const N: usize>(work: &mut Work<K>) {
    let slots = slots::<K, N>(&mut work.table);
    work.order = work
        .queries
        .iter()
        .map(|key| slots[&key.number()])
        .collect();
}

/// One control byte and one entry for each key, and the answer; no load waits for another.
pub fn fetch_hits<K: Stored<N>, const N: usize>(work: &mut Work<K>) {
    let (entries, controls) = parts(&mut work.table);
    let answers = work.answers.values.iter_mut().zip(&mut work.answers.found);
    for ((slot, key), (value, found)) in work.order.iter().zip(&work.queries).zip(answers) {
        let (there, its_value) = K::pair(&entries[*slot]);
        *value = its_value;
        *found = u8::from((there == *key) & (controls[*slot] < 128));
    }
}

/// Sixteen control bytes for each key that is not there.
pub fn fetch_misses<K: Stored<N>, const N: usize>(work: &mut Work<K>) {
    let (entries, controls) = parts::<N>(&mut work.table);
    for (key, found) in work.queries.iter().zip(&mut work.answers.found) {
        let home = key.number() as usize & (entries.len() - 1);
        let group: &[u8; 16] = controls[home..].first_chunk().expect("sixteen bytes");
        *found = u8::from(u128::from_le_bytes(*group) == 0);
    }
}

pub fn new_table<K: Calls>(work: &mut Work<K>) {
    K::init(&mut work.table, work.keys.len()).expect("the length is right");
}

/// A new table, and each pair at its slot, which is known: no search.
pub fn store<K: Stored<N>, const N: usize>(work: &mut Work<K>) {
    new_table(work);
    let (entries, controls) = parts(&mut work.table);
    for ((slot, key), value) in work.order.iter().zip(&work.keys).zip(&work.values) {
        entries[*slot] = key.entry(*value);
        controls[*slot] = (key.table_hash() >> 25) as u8;
    }
}

/// A new table, and each pair in the first free slot of its order: no key is compared, nothing counted.
pub fn place<K: Stored<N>, const N: usize>(work: &mut Work<K>) {
    new_table(work);
    let (entries, controls) = parts(&mut work.table);
    let mask = entries.len() - 1;
    for (key, value) in work.keys.iter().zip(&work.values) {
        let hash = key.table_hash();
        let (mut home, mut stride) = (hash as usize & mask, 0);
        let slot = loop {
            let free = unsafe {
                _mm_movemask_epi8(_mm_loadu_si128(controls[home..home + 16].as_ptr().cast()))
            };
            if free != 0 {
                break (home + free.trailing_zeros() as usize) & mask;
            }
            stride += 16;
            home = (home + stride) & mask;
        };
        entries[slot] = key.entry(*value);
        controls[slot] = (hash >> 25) as u8;
        if slot < 16 {
            controls[mask + 1 + slot] = (hash >> 25) as u8;
        }
    }
}

/// The most items of so many slots at 87 percent.
fn most(slots: usize) -> usize {
    slots * 57015 >> 16
}

/// Lists what growing does: the slot of each insert, and of each move from where, and to where in the upper half.
pub fn list_moves(work: &mut Work<u64>) {
    work.order.clear();
    let (mut size, mut next, mut bytes) = (16, 0, work.table.clone());
    while next < work.keys.len() {
        let count = most(size).min(work.keys.len());
        let mut here = |count: usize, size: usize| {
            let (keys, values) = (&work.keys[..count], &work.values[..count]);
            u64_u32::build_growing(keys, values, &mut bytes);
            slots::<u64, 12>(&mut bytes[..HEADER + 16 + size * 13])
        };
        let from = here(count, size);
        work.order
            .extend(work.keys[next..count].iter().map(|key| from[key]));
        if count < work.keys.len() {
            let to = here(count + 1, size * 2);
            let mut moves: Vec<usize> = from
                .iter()
                .map(|(key, slot)| slot | to[key] << 32)
                .collect();
            moves.sort_unstable_by_key(|both| *both as u32);
            work.order.extend(moves);
        }
        (size, next) = (size * 2, count);
    }
}

/// The same stores and moves as a table that grows, at slots that are known.
pub fn store_and_move(work: &mut Work<u64>) {
    let fresh = |size: usize| (vec![[0_u8; 12]; size], vec![255_u8; size]);
    let (mut size, mut next, mut places) = (16, 0, work.order.iter());
    let (mut entries, mut controls) = fresh(size);
    loop {
        let count = most(size).min(work.keys.len());
        for (at, slot) in (next..count).zip(&mut places) {
            entries[*slot] = work.keys[at].entry(work.values[at]);
            controls[*slot] = (work.keys[at].table_hash() >> 25) as u8;
        }
        if count == work.keys.len() {
            break;
        }
        (size, next) = (size * 2, count);
        let (mut larger, mut filled) = fresh(size);
        for (_, both) in (0..count).zip(&mut places) {
            let (from, to) = (both & 0xffff_ffff, both >> 32);
            larger[to] = entries[from];
            filled[to] = controls[from];
        }
        (entries, controls) = (larger, filled);
    }
    let (all, of_all) = parts(&mut work.table);
    all.copy_from_slice(&entries);
    of_all[..size].copy_from_slice(&controls);
}

/// The pairs of slots that are known, into arrays.
pub fn copy_pairs<K: Stored<N>, const N: usize>(work: &mut Work<K>) {
    let entries = parts::<N>(&mut work.table).0;
    let places = work.answers.keys.iter_mut().zip(&mut work.answers.values);
    for (slot, (key, value)) in work.order.iter().zip(places) {
        (*key, *value) = K::pair(&entries[*slot]);
    }
}
