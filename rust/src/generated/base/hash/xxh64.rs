// Generated from crates/odht_base/src/hash/xxh64.rt by make generate.
//! XXH64 with seed 0, by words.

use super::HashFn;
use crate::generated::base::bytes::read_u64;

// The constants of the function.
const PRIME_1: u64 = 0x9e37_79b1_85eb_ca87;

const PRIME_2: u64 = 0xc2b2_ae3d_27d4_eb4f;

const PRIME_3: u64 = 0x1656_67b1_9e37_79f9;

const PRIME_4: u64 = 0x85eb_ca77_c2b2_ae63;

const PRIME_5: u64 = 0x27d4_eb2f_1656_67c5;

/// The hash function for keys of any kind: the low 32 bits of XXH64 with seed 0.
///
/// Use it for text, tuples, floats and big-endian numbers, and wherever you do not know which bytes
/// of the keys differ. Each bit of a key changes each bit of the hash with a probability of one
/// half. A key of 8 bytes takes some twenty instructions more than with `FxHashFn`.
#[derive(PartialEq, Eq)]
pub struct Xxh64HashFn;

impl HashFn for Xxh64HashFn {
    const MIN_LEN: usize = 0;

    const NAME: &'static str = "Xxh64HashFn";

    #[inline]
    fn hash_name() -> &'static str {
        Self::NAME
    }

    // Inlined at each call: for a key of known length the compiler then drops all other pieces.
    #[inline(always)]
    fn hash(bytes: &[u8]) -> u32 {
        let (opened, after) = add_stripes(bytes);
        let state = opened.wrapping_add(bytes.len() as u64);
        (mix_bits(add_remainder(state, after)) & 0xffff_ffff) as u32
    }
}

// The state after the stripes of 32 bytes, and the bytes that follow them.
#[inline(always)]
fn add_stripes(bytes: &[u8]) -> (u64, &[u8]) {
    if bytes.len() < 32 {
        return (PRIME_5, bytes);
    }
    let mut first = PRIME_1.wrapping_add(PRIME_2);
    let mut second = PRIME_2;
    let mut third = 0;
    let mut fourth = 0_u64.wrapping_sub(PRIME_1);
    let mut left = bytes;
    while let Some((stripe, after)) = left.split_first_chunk::<32>() {
        first = add_lane(first, read_u64(stripe, 0));
        second = add_lane(second, read_u64(stripe, 8));
        third = add_lane(third, read_u64(stripe, 16));
        fourth = add_lane(fourth, read_u64(stripe, 24));
        left = after;
    }
    (converge(first, second, third, fourth), left)
}

// The state after the bytes that follow the stripes: pieces of eight, then of four, then of one.
#[inline(always)]
fn add_remainder(mut state: u64, bytes: &[u8]) -> u64 {
    let mut left = bytes;
    while let Some((piece, after)) = left.split_first_chunk::<8>() {
        state = add_word(state, u64::from_le_bytes(*piece));
        left = after;
    }
    if let Some((piece, last)) = left.split_first_chunk::<4>() {
        state = add_half(state, u32::from_le_bytes(*piece) as u64);
        left = last;
    }
    add_bytes(state, left)
}

// The state after these bytes, each a piece of its own.
#[inline(always)]
fn add_bytes(mut state: u64, bytes: &[u8]) -> u64 {
    for byte in bytes {
        state = add_last(state, *byte as u64);
    }
    state
}

// One of the four accumulators after eight bytes of a stripe.
#[inline]
fn add_lane(accumulator: u64, value: u64) -> u64 {
    accumulator.wrapping_add(value.wrapping_mul(PRIME_2)).rotate_left(31).wrapping_mul(PRIME_1)
}

// The four accumulators in one state.
#[inline]
fn converge(first: u64, second: u64, third: u64, fourth: u64) -> u64 {
    let state = first
        .rotate_left(1)
        .wrapping_add(second.rotate_left(7))
        .wrapping_add(third.rotate_left(12))
        .wrapping_add(fourth.rotate_left(18));
    merge(merge(merge(merge(state, first), second), third), fourth)
}

// The state after an accumulator is merged into it.
#[inline]
fn merge(state: u64, accumulator: u64) -> u64 {
    (state ^ add_lane(0, accumulator)).wrapping_mul(PRIME_1).wrapping_add(PRIME_4)
}

// The state after the number of a piece of eight bytes.
#[inline]
fn add_word(state: u64, value: u64) -> u64 {
    (state ^ add_lane(0, value)).rotate_left(27).wrapping_mul(PRIME_1).wrapping_add(PRIME_4)
}

// The state after the number of a piece of four bytes.
#[inline]
fn add_half(state: u64, value: u64) -> u64 {
    (state ^ value.wrapping_mul(PRIME_1))
        .rotate_left(23)
        .wrapping_mul(PRIME_2)
        .wrapping_add(PRIME_3)
}

// The state after one byte.
#[inline]
fn add_last(state: u64, value: u64) -> u64 {
    (state ^ value.wrapping_mul(PRIME_5)).rotate_left(11).wrapping_mul(PRIME_1)
}

// The state with its bits mixed.
#[inline]
fn mix_bits(state: u64) -> u64 {
    let second = (state ^ (state >> 33)).wrapping_mul(PRIME_2);
    let third = (second ^ (second >> 29)).wrapping_mul(PRIME_3);
    third ^ (third >> 32)
}
