//! Measures the crate for Rust beside the original Rust crate, in one process: as it is, and with the feature `checked`. It
//! prints a line for each job, kind of key and size. README.md, "The crate for Rust", says how.

mod kinds;

use std::hint::black_box;
use std::time::Instant;

use kinds::{Array, Kind, Multiples, Numbers};

const PERCENT: u8 = 87;

/// Items, and rounds of each job.
const SIZES: [(usize, usize); 5] =
    [(1_000, 2000), (10_000, 200), (100_000, 30), (1_000_000, 7), (10_000_000, 3)];

/// The sizes of the kinds of keys that have lookups alone, and these lines.
const FEWER_SIZES: [usize; 2] = [1_000, 10_000];
const LOOKUPS: &[&str] = &["get, present", "get, absent"];

/// What the jobs work on.
struct Work<K> {
    pairs: Vec<(K, u32)>,
    /// The keys in another order.
    present: Vec<K>,
    absent: Vec<K>,
    /// A table of the pairs.
    table: Vec<u8>,
    /// A buffer of that length.
    out: Vec<u8>,
    values: Vec<Option<u32>>,
}

/// One job, by each contender: the original, the crate, the crate with `checked`.
struct Line<K> {
    name: &'static str,
    jobs: [fn(&mut Work<K>); 3],
}

/// The jobs of a contender for a kind of key.
struct Jobs<K> {
    insert: fn(&mut Work<K>),
    insert_all: fn(&mut Work<K>),
    present: fn(&mut Work<K>),
    present_all: fn(&mut Work<K>),
    absent: fn(&mut Work<K>),
    absent_all: fn(&mut Work<K>),
    walk: fn(&mut Work<K>),
    open: fn(&mut Work<K>),
    grow: fn(&mut Work<K>),
}

/// The jobs of a crate; `insert_all` and `get_all` as they are given, since the original has neither.
macro_rules! contender {
    ($name:ident, $odht:ident, $insert_all:item, $get_all:item) => {
        mod $name {
            use super::*;
            use $odht::{bytes_needed, Config, FxHashFn, HashTable, HashTableOwned, UnHashFn};

            configured!(U64, u64, 8, FxHashFn, |k: &u64| k.to_le_bytes(), |k: &[u8; 8]| {
                u64::from_le_bytes(*k)
            });
            arrays!(B12: 12, FxHashFn; B16: 16, UnHashFn; B20: 20, UnHashFn; B32: 32, UnHashFn);
            arrays!(B64: 64, FxHashFn; B255: 255, FxHashFn);

            $insert_all
            $get_all

            fn open<C: Config>(bytes: &[u8]) -> HashTable<C, &[u8]> {
                HashTable::from_raw_bytes(bytes).expect("it is a table")
            }

            fn new<C: Config>(out: &mut [u8], count: usize) -> HashTable<C, &mut [u8]> {
                assert_eq!(out.len(), bytes_needed::<C>(count, PERCENT));
                HashTable::init_in_place(out, count, PERCENT).expect("the length is right")
            }

            fn get<C: Config<Value = u32>>(table: &[u8], keys: &[C::Key], values: &mut [Option<u32>]) {
                let table = open::<C>(table);
                for (key, value) in keys.iter().zip(values) {
                    *value = table.get(key);
                }
            }

            pub fn jobs<C: Config<Value = u32>>() -> Jobs<C::Key> {
                Jobs {
                    insert: |work| {
                        let mut table = new::<C>(&mut work.out, work.pairs.len());
                        for (key, value) in &work.pairs {
                            table.insert(key, value);
                        }
                    },
                    insert_all: |work| {
                        insert_all(&mut new::<C>(&mut work.out, work.pairs.len()), &work.pairs)
                    },
                    present: |work| get::<C>(&work.table, &work.present, &mut work.values),
                    present_all: |work| {
                        get_all(&open::<C>(&work.table), &work.present, &mut work.values)
                    },
                    absent: |work| get::<C>(&work.table, &work.absent, &mut work.values),
                    absent_all: |work| {
                        get_all(&open::<C>(&work.table), &work.absent, &mut work.values)
                    },
                    walk: |work| {
                        let table = open::<C>(&work.table);
                        for ((_, value), to) in table.iter().zip(&mut work.values) {
                            *to = Some(value);
                        }
                    },
                    open: |work| {
                        for _ in 0..1000 {
                            black_box(open::<C>(black_box(&work.table)).len());
                        }
                    },
                    grow: |work| {
                        let mut table = HashTableOwned::<C>::default();
                        for (key, value) in &work.pairs {
                            table.insert(key, value);
                        }
                        black_box(table.raw_bytes());
                    },
                }
            }
        }
    };
}

macro_rules! configured {
    ($name:ident, $key:ty, $len:literal, $hash:ty, $encode:expr, $decode:expr) => {
        pub struct $name;

        impl Config for $name {
            type Key = $key;
            type Value = u32;
            type EncodedKey = [u8; $len];
            type EncodedValue = [u8; 4];
            type H = $hash;

            #[inline]
            fn encode_key(k: &$key) -> [u8; $len] {
                $encode(k)
            }

            #[inline]
            fn encode_value(v: &u32) -> [u8; 4] {
                v.to_le_bytes()
            }

            #[inline]
            fn decode_key(k: &[u8; $len]) -> $key {
                $decode(k)
            }

            #[inline]
            fn decode_value(v: &[u8; 4]) -> u32 {
                u32::from_le_bytes(*v)
            }
        }
    };
}

/// Configurations of arrays of bytes, of these lengths and hash functions.
macro_rules! arrays {
    ($($name:ident: $len:literal, $hash:ty);*) => {
        $(configured!($name, [u8; $len], $len, $hash, |k: &[u8; $len]| *k, |k: &[u8; $len]| *k);)*
    };
}

macro_rules! ours {
    ($name:ident, $odht:ident) => {
        contender!(
            $name,
            $odht,
            fn insert_all<C: Config>(
                table: &mut HashTable<C, &mut [u8]>,
                pairs: &[(C::Key, C::Value)],
            ) {
                table.insert_all(pairs);
            },
            fn get_all<C: Config>(
                table: &HashTable<C, &[u8]>,
                keys: &[C::Key],
                values: &mut [Option<C::Value>],
            ) {
                table.get_all(keys, values);
            }
        );
    };
}

contender!(
    original,
    odht,
    fn insert_all<C: Config>(table: &mut HashTable<C, &mut [u8]>, pairs: &[(C::Key, C::Value)]) {
        for (key, value) in pairs {
            table.insert(key, value);
        }
    },
    fn get_all<C: Config>(
        table: &HashTable<C, &[u8]>,
        keys: &[C::Key],
        values: &mut [Option<C::Value>],
    ) {
        for (key, value) in keys.iter().zip(values) {
            *value = table.get(key);
        }
    }
);
ours!(default, odht_default);
ours!(checked, odht_checked);

/// splitmix64: no number comes twice.
fn random(state: &mut u64) -> u64 {
    *state = state.wrapping_add(0x9e37_79b9_7f4a_7c15);
    let mixed = (*state ^ (*state >> 30)).wrapping_mul(0xbf58_476d_1ce4_e5b9);
    let mixed = (mixed ^ (mixed >> 27)).wrapping_mul(0x94d0_49bb_1331_11eb);
    mixed ^ (mixed >> 31)
}

fn work<K: Kind>(count: usize, table_len: usize) -> Work<K::Key> {
    let mut state = 7;
    let mut keys =
        |count: usize| -> Vec<K::Key> { (0..count).map(|_| K::of(random(&mut state))).collect() };
    let (stored, absent) = (keys(count), keys(count));
    let mut present = stored.clone();
    for last in (1..count).rev() {
        present.swap(last, random(&mut state) as usize % (last + 1));
    }
    Work {
        pairs: stored.into_iter().zip(0..).collect(),
        present,
        absent,
        table: vec![0; table_len],
        out: vec![0; table_len],
        values: vec![None; count],
    }
}

fn lines<K>([original, default, checked]: [Jobs<K>; 3]) -> [Line<K>; 9] {
    macro_rules! line {
        ($name:literal, $job:ident) => {
            Line { name: $name, jobs: [original.$job, default.$job, checked.$job] }
        };
    }
    [
        line!("insert", insert),
        line!("insert_all", insert_all),
        line!("get, present", present),
        line!("get_all, present", present_all),
        line!("get, absent", absent),
        line!("get_all, absent", absent_all),
        line!("walk", walk),
        line!("open", open),
        line!("insert growing", grow),
    ]
}

/// The best time of each contender, in nanoseconds. In each round each has its turn, and another one begins.
fn best<K>(line: &Line<K>, rounds: usize, work: &mut Work<K>) -> [f64; 3] {
    let mut best = [f64::INFINITY; 3];
    for turn in 0..3 * rounds {
        let place = (turn + turn / 3) % 3;
        let start = Instant::now();
        (line.jobs[place])(work);
        best[place] = best[place].min(start.elapsed().as_nanos() as f64);
    }
    best
}

/// Whether all three leave the same, in the buffer and in the values.
fn check<K: Copy>(line: &Line<K>, work: &mut Work<K>) {
    let mut first = None;
    for job in line.jobs {
        work.out.fill(0xa5);
        work.values.fill(None);
        job(work);
        let left = (work.out.clone(), work.values.clone());
        assert!(*first.get_or_insert_with(|| left.clone()) == left, "{}", line.name);
    }
}

/// Prints the lines of a kind of key at a size, or, where any are named, these.
fn measure<K: Kind>(
    (count, rounds): (usize, usize),
    table_len: usize,
    jobs: [Jobs<K::Key>; 3],
    named: &[&str],
) {
    let mut work = work::<K>(count, table_len);
    (jobs[0].insert)(&mut work);
    work.table.copy_from_slice(&work.out);
    for line in lines(jobs).iter().filter(|line| named.is_empty() || named.contains(&line.name)) {
        check(line, &mut work);
        let [original, default, checked] = best(line, rounds, &mut work);
        let items = if line.name == "open" { 1000.0 } else { count as f64 };
        println!(
            "| {} | {} | {count} | {:.1} | {:.1} | {:.1} | {:.2} | {:.2} |",
            line.name,
            K::NAME,
            original / items,
            default / items,
            checked / items,
            default / original,
            checked / original
        );
    }
}

/// `measure` of a kind of key by the three configurations of a name.
macro_rules! measured {
    ($kind:ty, $config:ident, $size:expr, $named:expr) => {{
        let len = odht::bytes_needed::<original::$config>($size.0, PERCENT);
        let original = original::jobs::<original::$config>();
        let default = default::jobs::<default::$config>();
        let checked = checked::jobs::<checked::$config>();
        measure::<$kind>($size, len, [original, default, checked], $named);
    }};
}

fn main() {
    let most = std::env::args().nth(1).and_then(|word| word.parse().ok()).unwrap_or(usize::MAX);
    println!("| job | keys | items | original, ns | default, ns | checked, ns | default | checked |");
    println!("|---|---|---|---|---|---|---|---|");
    for size in SIZES.into_iter().filter(|size| size.0 <= most) {
        measured!(Numbers, U64, size, &[]);
        measured!(Array<16>, B16, size, &[]);
        if FEWER_SIZES.contains(&size.0) {
            measured!(Multiples<16>, U64, size, LOOKUPS);
            measured!(Multiples<4096>, U64, size, LOOKUPS);
            measured!(Array<12>, B12, size, LOOKUPS);
            measured!(Array<20>, B20, size, LOOKUPS);
            measured!(Array<32>, B32, size, LOOKUPS);
            measured!(Array<64>, B64, size, LOOKUPS);
            measured!(Array<255>, B255, size, LOOKUPS);
        }
    }
}
