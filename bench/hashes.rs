//! The time of `get` by XXH64 over that by `FxHashFn`, in tables that fit the caches and in one that does not, of keys
//! without order. `hashes NAME` prints a row for each length of keys, which begins with this name.

use odht::{Config, FxHashFn, HashFn, HashTableOwned, Xxh64HashFn};
use std::hint::black_box;
use std::marker::PhantomData;
use std::time::Instant;

struct Keys<H, const LEN: usize>(PhantomData<H>);

impl<H: HashFn, const LEN: usize> Config for Keys<H, LEN> {
    type Key = [u8; LEN];
    type Value = u32;
    type EncodedKey = [u8; LEN];
    type EncodedValue = [u8; 4];
    type H = H;

    fn encode_key(k: &[u8; LEN]) -> [u8; LEN] {
        *k
    }

    fn encode_value(v: &u32) -> [u8; 4] {
        v.to_le_bytes()
    }

    fn decode_key(k: &[u8; LEN]) -> [u8; LEN] {
        *k
    }

    fn decode_value(v: &[u8; 4]) -> u32 {
        u32::from_le_bytes(*v)
    }
}

/// The key of a number: bytes without order.
fn key<const LEN: usize>(number: usize) -> [u8; LEN] {
    let mut state = (number as u64 + 1).wrapping_mul(0x9E37_79B9_7F4A_7C15);
    std::array::from_fn(|_| {
        state = (state ^ (state >> 29)).wrapping_mul(0xBF58_476D_1CE4_E5B9);
        state ^= state >> 32;
        (state >> 13) as u8
    })
}

fn table<H: HashFn, const LEN: usize>(items: usize) -> HashTableOwned<Keys<H, LEN>> {
    let mut table = HashTableOwned::with_capacity(items, 87);
    table.insert_all(&(0..items).map(|it| (key(it), it as u32)).collect::<Vec<_>>());
    table
}

/// Nanoseconds of a `get` of each key.
#[inline(never)]
fn round<H: HashFn, const LEN: usize>(table: &HashTableOwned<Keys<H, LEN>>, keys: &[[u8; LEN]]) -> f64 {
    let began = Instant::now();
    let sum = keys.iter().fold(0, |sum: u32, key| sum.wrapping_add(table.get(key).unwrap_or(0)));
    black_box(sum);
    began.elapsed().as_nanos() as f64 / keys.len() as f64
}

/// The least nanoseconds of several rounds, taken in turn: by `FxHashFn`, and by XXH64.
fn least<const LEN: usize>(items: usize, rounds: usize) -> [f64; 2] {
    let (fx, xxh64) = (table::<FxHashFn, LEN>(items), table::<Xxh64HashFn, LEN>(items));
    let mut keys: Vec<[u8; LEN]> = (0..items).map(key).collect();
    let last = keys.len();
    (0..last).for_each(|at| keys.swap(at, at.wrapping_mul(0x9E37_79B9) % last));
    keys.truncate(1 << 18);
    let mut least = [f64::MAX; 2];
    for _ in 0..rounds {
        least = [least[0].min(round(&fx, &keys)), least[1].min(round(&xxh64, &keys))];
    }
    least
}

fn row<const LEN: usize>(name: &str) {
    let ([fx, xxh64], [far_fx, far_xxh64]) = (least::<LEN>(20_000, 40), least::<LEN>(2_000_000, 8));
    let (near, far) = (xxh64 / fx, far_xxh64 / far_fx);
    println!("| {name}, {LEN} | {fx:.1}, {xxh64:.1}: {near:.2} | {far_fx:.1}, {far_xxh64:.1}: {far:.2} |");
}

fn main() {
    let name = std::env::args().nth(1).unwrap_or_default();
    row::<8>(&name);
    row::<16>(&name);
    row::<32>(&name);
    row::<64>(&name);
}
