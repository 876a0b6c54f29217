//! How long searches are in tables of random keys: the longest of a table, by homes, in groups of sixteen control
//! bytes. It prints the most of several tables of each size and load factor, as docs/FORMAT.md has it. Then it compares
//! tables by XXH64, of keys as programs have them, with tables of random keys.

#[path = "../rust/tests/common/random.rs"]
#[allow(dead_code)]
mod random;

#[path = "../rust/tests/common/families.rs"]
mod families;
#[path = "../rust/tests/common/searches.rs"]
mod searches;

use odht::configs::U64ToU32;
use odht::{HashTable, HashTableOwned, DEFAULT_GROUPS};
use random::Random;

/// Powers of two that are the slots, and how many tables there are of each load factor.
const SIZES: [(u32, usize); 5] = [(10, 2000), (14, 500), (17, 100), (20, 30), (24, 10)];

/// In percent of the slots, which are filled up to that.
const LOADS: [u8; 3] = [50, 87, 95];

const GROUP: usize = 16;

/// A table of so many slots with as many random keys as it takes.
fn table_of(slots: usize, percent: u8, random: &mut Random) -> HashTableOwned<U64ToU32> {
    let items = slots * (usize::from(percent) * 65_535 / 100) / 65_536;
    let pairs: Vec<(u64, u32)> = (0..items).map(|_| (random.number(), 0)).collect();
    let mut table = HashTableOwned::with_capacity(items, percent);
    table.insert_all(&pairs);
    assert_eq!((table.len(), table.raw_bytes().len()), (items, 32 + slots * 13 + GROUP));
    table
}

/// How many groups the longest search reads: that from the home for which most groups are full before one with a free
/// slot. A group that runs past the last slot goes on in the mirror.
fn longest(control: &[u8]) -> usize {
    let slots = control.len() - GROUP;
    let has_free = |start: usize| control[start..start + GROUP].iter().any(|byte| *byte >= 128);
    let groups_from = |home: usize| {
        let full = (0..).take_while(|group| !has_free((home + 8 * group * (group + 1)) % slots));
        full.count() + 1
    };
    (0..slots).map(groups_from).max().expect("there are slots")
}

/// The longest search of a table; the library says the same, and it is within the default bound.
fn measured(table: &HashTableOwned<U64ToU32>, slots: usize) -> usize {
    let bytes = table.raw_bytes();
    let groups = longest(&bytes[32 + slots * 12..]);
    let view = HashTable::<U64ToU32, _>::from_raw_bytes(bytes).expect("the bytes of a table");
    assert!(view.searches_within(groups) && !view.searches_within(groups - 1));
    assert!(groups <= DEFAULT_GROUPS && view.verify_within(DEFAULT_GROUPS));
    groups
}

/// Compares each family of keys with random keys, up to so many slots, and prints for each number of slots the largest
/// share of the mean.
fn compare_families(most: u64) {
    println!("\n| slots | groups of a present key by XXH64, of random keys, at most |\n|---|---|");
    for bound in searches::bounds().iter().filter(|bound| bound.slots <= most) {
        let shares = families::families().into_iter().map(|family| {
            let (mean, is_within) = searches::measured(&family, bound);
            assert!(is_within, "{}, {} slots: over {} groups", family.name, bound.slots, bound.most);
            assert!(mean <= 1.05 * bound.mean, "{}, {} slots: {mean}", family.name, bound.slots);
            mean / bound.mean
        });
        println!("| {} | {:.3} |", bound.slots, shares.fold(0.0, f64::max));
    }
}

fn main() {
    let most = std::env::args().nth(1).and_then(|word| word.parse().ok()).unwrap_or(usize::MAX);
    println!("| slots | 50 percent | 87 percent | 95 percent |\n|---|---|---|---|");
    for (power, tables) in SIZES {
        let slots = 1 << power;
        if slots > most {
            break;
        }
        let columns = LOADS.map(|percent| {
            // Each cell has a seed of its own, so that it does not depend on what was measured before.
            let mut random = Random(u64::from(percent) << 32 | u64::from(power));
            let all = (0..tables).map(|_| measured(&table_of(slots, percent, &mut random), slots));
            all.max().expect("there are tables").to_string()
        });
        println!("| 2^{power} | {} |", columns.join(" | "));
    }
    compare_families(most as u64);
}
