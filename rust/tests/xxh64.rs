//! Tables by XXH64: keys that other hash functions do not spread have searches as short as those of random keys.

use crate::common::families::families;
use crate::common::random::Random;
use crate::common::searches::{bounds, measured};
use odht::{HashFn, HashTableOwned, Xxh64HashFn};
use std::path::Path;
use std::process::Command;

/// No search for a key in a table below reads more groups of sixteen slots.
const MOST: usize = 8;

odht::config! {
    Names: [u8; 16] => u64, by Xxh64;
    LongNames: [u8; 32] => u64, by Xxh64;
    Grid: (i32, i32) => [f32; 3], by Xxh64;
    Lines: (u32, u64) => (u32, u16), by Xxh64;
    Floats: f64 => u32, by Xxh64;
    High: u64 => u32, by Xxh64;
    BigEndian: [u8; 8] => u32, by Xxh64;
    Folded: u128 => u32, by Xxh64;
    Texts: u128 => [u64; 2], by UnHash;
    Numbers: u64 => u32, by Fx;
    Codes: [u8; 2] => u16, by Xxh64;
    Colours: (u16, u16) => [u8; 3], by Xxh64
}

fn name<const N: usize>(text: &str) -> [u8; N] {
    let mut bytes = [0; N];
    bytes[..text.len()].copy_from_slice(text.as_bytes());
    bytes
}

/// FNV-1a of 128 bits.
fn fnv(text: &str) -> u128 {
    let step = |hash: u128, byte| (hash ^ u128::from(byte)).wrapping_mul((1 << 88) + 0x13b);
    text.bytes().fold(0x6c62_272e_07bb_0142_62b8_2175_6295_c58d, step)
}

/// Whether no search for a key in the table of these keys reads more than `MOST` groups.
fn is_short<C: odht::Config>(keys: impl Iterator<Item = C::Key>, value: C::Value) -> bool {
    let mut table = HashTableOwned::<C>::default();
    keys.for_each(|key| {
        table.insert(&key, &value);
    });
    let most = table.keys().map(|key| table.get_counted(&key).1).max();
    most.is_some_and(|groups| groups <= MOST)
}

/// A word of letters for each number.
fn word(mut number: u64) -> String {
    let mut letters = String::new();
    while number > 0 {
        letters.push(char::from(b'a' + (number % 26) as u8));
        number /= 26;
    }
    letters
}

#[test]
fn keys_that_fx_and_unhash_do_not_spread_have_short_searches() {
    assert!(is_short::<Names>((0..200_000).map(|it| name(&format!("sym_{it}"))), 0));
    assert!(is_short::<Grid>((0..250_000).map(|it| (it / 500, it % 500)), [0.0; 3]));
    assert!(is_short::<Lines>(
        (0..40_000).map(|it| (it % 128, u64::from(it) / 128 * 4096)),
        (0, 0)
    ));
    assert!(is_short::<Floats>((0..20_000).map(f64::from), 0));
    assert!(is_short::<High>((0..20_000).map(|it| it << 32), 0));
    assert!(is_short::<Folded>((0..99_200).map(|it| fnv(&format!("word{it}"))), 0));
    assert!(is_short::<Names>((1..=104_026).map(|it| name(&word(it))), 0));
    assert!(is_short::<BigEndian>((1..=100_000_u64).map(u64::to_be_bytes), 0));
}

#[test]
fn the_examples_of_the_documents_have_short_searches() {
    let count = 100_000_u64;
    assert!(is_short::<Names>((0..count).map(|it| name(&format!("fn_{}", word(it)))), 0));
    assert!(is_short::<LongNames>((0..count).map(|it| name(&format!("module::path::fn_{it}"))), 0));
    assert!(is_short::<Lines>((0..count).map(|it| ((it / 2000) as u32, it % 2000 * 16)), (0, 0)));
    assert!(is_short::<Numbers>(0..count, 0));
    let mut random = Random(1);
    let mut hash = || u128::from(random.number()) << 64 | u128::from(random.number());
    assert!(is_short::<Texts>((0..count).map(|_| hash()), [0; 2]));
    assert!(is_short::<Colours>(
        (0..count).map(|it| ((it / 400) as u16, (it % 400) as u16)),
        [0; 3]
    ));
    let letters = || b'A'..=b'Z';
    assert!(is_short::<Codes>(letters().flat_map(|first| letters().map(move |it| [first, it])), 0));
    assert!(is_short::<BigEndian>((0..count).map(|it| name(&format!("s{it}"))), 0));
}

/// A Python that has the module `xxhash`.
fn python_with_xxhash() -> Option<&'static str> {
    let has_it = |python: &&str| {
        let ran = Command::new(python).args(["-c", "import xxhash"]).output();
        ran.is_ok_and(|it| it.status.success())
    };
    ["python3", "/usr/bin/python3"].into_iter().find(has_it)
}

/// A reader that has only docs/FORMAT.md and another library's XXH64.
#[test]
fn a_reader_in_python_finds_all_keys() {
    let reader = Path::new(env!("CARGO_MANIFEST_DIR")).join("../tests/xxh64_reader.py");
    let (true, Some(python)) = (reader.exists(), python_with_xxhash()) else {
        println!("skipped: no {}, or no Python with the module xxhash", reader.display());
        return;
    };
    let names: Vec<[u8; 16]> = (0..5000).map(|it| name(&format!("sym_{it}"))).collect();
    let present = names[..4000].iter().zip(0..).map(|(it, value)| (*it, value));
    let table: HashTableOwned<Names> = present.collect();
    let room = std::env::temp_dir().join(format!("odht-xxh64-{}", std::process::id()));
    std::fs::create_dir_all(&room).unwrap();
    let (bytes, keys) = (room.join("table"), room.join("keys"));
    std::fs::write(&bytes, table.raw_bytes()).unwrap();
    let digits = |it: &[u8]| it.iter().map(|byte| format!("{byte:02x}")).collect::<String>();
    std::fs::write(&keys, names.iter().map(|it| digits(it) + "\n").collect::<String>()).unwrap();
    let ran = Command::new(python).args([&reader, &bytes, &keys]).output().unwrap();
    std::fs::remove_dir_all(&room).unwrap();
    let said = String::from_utf8(ran.stdout).unwrap();
    let mut lines = said.lines();
    for (value, it) in lines.by_ref().take(names.len()).zip(0_u64..) {
        let expected = if it < 4000 { digits(&it.to_le_bytes()) } else { "none".to_string() };
        assert_eq!(value, expected);
    }
    let most: usize = lines.next().expect("the reader ended well").parse().unwrap();
    assert!(most <= MOST, "{most} groups");
}

#[test]
fn searches_are_as_short_as_those_of_random_keys() {
    for bound in bounds().iter().filter(|bound| bound.slots <= 1 << 14) {
        for family in families() {
            let (mean, is_within) = measured(&family, bound);
            let (name, slots) = (&family.name, bound.slots);
            assert!(
                mean <= 1.05 * bound.mean,
                "{name}, {slots} slots: {mean} groups, random {}",
                bound.mean
            );
            assert!(
                is_within,
                "{name}, {slots} slots: a search reads more than {} groups",
                bound.most
            );
        }
    }
}

/// How often each of the 32 bits of the hash differs where this bit of a key is changed, of that
/// many random keys.
fn flips(len: usize, bit: usize, keys: usize, random: &mut Random) -> [usize; 32] {
    let mut counts = [0; 32];
    for _ in 0..keys {
        let mut key: Vec<u8> = (0..len).map(|_| random.byte()).collect();
        let before = Xxh64HashFn::hash(&key);
        key[bit / 8] ^= 1 << (bit % 8);
        let changed = before ^ Xxh64HashFn::hash(&key);
        (0..32).for_each(|at| counts[at] += (changed >> at & 1) as usize);
    }
    counts
}

/// Of one byte there are but 128 pairs of keys, of which no function gives each bit of the hash a share so near to a half.
#[test]
fn each_bit_of_a_key_changes_each_bit_of_the_hash_half_of_the_time() {
    let mut random = Random(7);
    for len in [2, 3, 4, 7, 8, 12, 16, 24, 31, 32, 40, 64] {
        for bit in (0..8 * len).step_by(if len < 9 { 1 } else { 11 }) {
            for count in flips(len, bit, 20_000, &mut random) {
                assert!(
                    (9_600..=10_400).contains(&count),
                    "{len} bytes, bit {bit}: {count} of 20,000"
                );
            }
        }
    }
}
