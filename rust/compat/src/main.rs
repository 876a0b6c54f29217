//! Prints what the tables of this crate are, so that two builds of it can be compared.

use compat::definitions::{collect, hashes, Map, PathHash};
use compat::{first_table, in_place};
use std::rc::Rc;

fn hex(bytes: &[u8]) -> String {
    bytes.iter().map(|byte| format!("{:02x}", byte)).collect()
}

// The hash FNV-1a of the bytes, in 64 bits.
fn fingerprint(bytes: &[u8]) -> u64 {
    bytes.iter().fold(0xcbf2_9ce4_8422_2325, |hash, byte| {
        (hash ^ u64::from(*byte)).wrapping_mul(0x0100_0000_01b3)
    })
}

fn main() {
    let stored = first_table::build();
    println!("first table {}", hex(&stored));
    println!("values {:?}", first_table::look_up(&stored, &[1, 3, 5, 7]));
    for count in [0, 1, 13, 14, 1000, 100_000].iter() {
        let map = collect(hashes(*count));
        let mut metadata = vec![7; 3];
        Map::Compiled(&map).write(&mut metadata);
        println!("{} definitions {} {:x}", count, metadata.len(), fingerprint(&metadata));
        let map = Map::read(&Rc::new(metadata), 3);
        let found: Vec<_> = hashes(count + 2).map(|hash| map.index_of(&hash)).collect();
        println!("found {:x}", fingerprint(format!("{:?}", found).as_bytes()));
        println!("absent {:?}", map.index_of(&PathHash(5)));
    }
    let words = ["a", "ab", "ba", "abc", "cab", "bca", "on", "no", "a"];
    println!("words {}", hex(&in_place::set_of(&words).unwrap()));
    println!("error {:?}", in_place::error_of::<in_place::Words>(&stored));
}
