//! One job of single calls on a table of 800 items, so many times over all keys: bench/single.sh counts its instructions.
//!
//! Each job is a program of its own, since what the compiler inlines hangs on what else calls it. `job` is `get`, `has`,
//! `list` or `insert`; `absent` takes keys that are not in the table, for which `insert` fills a new one each time; and
//! `called` has the call in a function of its own, which is not inlined; and with `xxh64` keys are hashed by XXH64.
#![allow(dead_code, unused_mut)]

#[cfg(not(xxh64))]
use odht::FxHashFn as Hash;
#[cfg(xxh64)]
use odht::Xxh64HashFn as Hash;
use odht::{Config, HashTableOwned};
use std::hint::black_box;

// `const LEN: usize`, how many bytes a key has
include!(env!("LEN_FILE"));

const ITEMS: u64 = 800;

type Key = [u8; LEN];

struct Keys;

impl Config for Keys {
    type Key = Key;
    type Value = u32;
    type EncodedKey = Key;
    type EncodedValue = [u8; 4];
    type H = Hash;

    fn encode_key(k: &Key) -> Key {
        *k
    }

    fn encode_value(v: &u32) -> [u8; 4] {
        v.to_le_bytes()
    }

    fn decode_key(k: &Key) -> Key {
        *k
    }

    fn decode_value(v: &[u8; 4]) -> u32 {
        u32::from_le_bytes(*v)
    }
}

// The key of a number: bytes without order.
fn key(number: u64) -> Key {
    let mut bytes = [0; LEN];
    let mut state = (number + 1).wrapping_mul(0x9E37_79B9_7F4A_7C15);
    for byte in &mut bytes {
        state = (state ^ (state >> 29)).wrapping_mul(0xBF58_476D_1CE4_E5B9);
        state ^= state >> 32;
        *byte = (state >> 13) as u8;
    }
    bytes
}

#[inline(never)]
fn table() -> HashTableOwned<Keys> {
    let mut table = HashTableOwned::<Keys>::with_capacity(ITEMS as usize, 87);
    for number in 0..ITEMS {
        table.insert(&key(number), &(number as u32));
    }
    table
}

#[cfg_attr(called, inline(never))]
#[cfg_attr(not(called), inline(always))]
fn get(table: &HashTableOwned<Keys>, key: &Key) -> Option<u32> {
    table.get(key)
}

#[cfg_attr(called, inline(never))]
#[cfg_attr(not(called), inline(always))]
fn has(table: &HashTableOwned<Keys>, key: &Key) -> bool {
    table.contains_key(key)
}

#[inline(never)]
fn insert(table: &mut HashTableOwned<Keys>, key: &Key, value: &u32) -> Option<u32> {
    table.insert(key, value)
}

fn main() {
    let rounds: usize = std::env::args().nth(1).and_then(|it| it.parse().ok()).expect("a number of rounds");
    let present: Vec<Key> = (0..ITEMS).rev().map(key).collect();
    let absent: Vec<Key> = (0..ITEMS).map(|number| key(1_000_000 + number)).collect();
    let keys: &[Key] = if cfg!(absent) { &absent } else { &present };
    let mut table = table();
    let mut sum = 0u64;
    for _ in 0..rounds {
        #[cfg(job = "get")]
        for key in keys {
            if let Some(value) = get(&table, key) {
                sum = sum.wrapping_add(u64::from(value));
            }
        }
        #[cfg(job = "has")]
        for key in keys {
            if has(&table, key) {
                sum = sum.wrapping_add(1);
            }
        }
        #[cfg(job = "list")]
        {
            let mut values = vec![None; keys.len()];
            table.get_all(keys, &mut values);
            black_box(&values);
        }
        #[cfg(job = "insert")]
        {
            if cfg!(absent) {
                table = HashTableOwned::<Keys>::with_capacity(ITEMS as usize, 87);
            }
            for key in keys {
                if let Some(value) = insert(&mut table, key, &7) {
                    sum = sum.wrapping_add(u64::from(value));
                }
            }
        }
    }
    black_box(sum);
}
