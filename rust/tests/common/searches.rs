//! How long searches are in tables of a family of keys by XXH64, compared with those of random keys.

use super::families::Family;
use odht::dynamic::{DynTableOwned, Layout};
use odht::Xxh64HashFn;

/// Slots, the mean number of groups of a present key, and the most of any search: of random keys, by a simulation.
pub struct Bound {
    pub slots: u64,
    pub mean: f64,
    pub most: usize,
}

/// The bounds of random keys, which bench/random_searches.c prints.
pub fn bounds() -> Vec<Bound> {
    let lines =
        include_str!("../data/random_searches.txt").lines().filter(|line| !line.starts_with('#'));
    lines
        .map(|line| {
            let words: Vec<&str> = line.split(' ').collect();
            let slots = words[0].parse().expect("slots");
            let mean = words[1].parse().expect("a mean");
            Bound { slots, mean, most: words[2].parse().expect("groups") }
        })
        .collect()
}

/// The table of the keys from a number on that fill these slots to 87 percent, and the keys.
fn table_of(family: &Family, first: u64, slots: u64) -> (DynTableOwned<Xxh64HashFn>, Vec<Vec<u8>>) {
    let items = slots * 57015 / 65536;
    let keys: Vec<Vec<u8>> = (first..first + items).map(|number| family.key(number)).collect();
    let layout = Layout { key_len: keys[0].len() as u8, value_len: 0 };
    let mut table = DynTableOwned::with_capacity(layout, items as usize, 87).expect("a table");
    for key in &keys {
        assert_eq!(
            table.insert(key, b"").expect("memory"),
            None,
            "{}: a key comes twice",
            family.name
        );
    }
    let entries = table.raw_bytes().len() as u64 - 48;
    assert_eq!(entries, slots * (u64::from(layout.key_len) + 1), "{} slots", slots);
    (table, keys)
}

/// The mean number of groups of present keys over several tables, and whether no search in two of the first three reads
/// more than the bound: of 100 tables of random keys one exceeds it by chance.
pub fn measured(family: &Family, bound: &Bound) -> (f64, bool) {
    let tables = (65536 / bound.slots).clamp(3, 16);
    let (mut groups, mut count, mut within) = (0, 0, 0);
    for number in 0..tables {
        let (table, keys) = table_of(family, number * bound.slots, bound.slots);
        groups += keys.iter().map(|key| table.get_counted(key).1).sum::<usize>();
        count += keys.len();
        within += usize::from(number < 3 && table.as_view().searches_within(bound.most));
    }
    (groups as f64 / count as f64, within >= 2)
}
