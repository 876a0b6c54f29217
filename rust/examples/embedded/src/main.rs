//! Looks up keys in a table that is part of the program's read-only data. Nothing is decoded or
//! allocated when the program starts.

use odht::{BytesOf, HashTable};

include!("config.rs");

fn main() {
    let built_in = include_bytes!(concat!(env!("OUT_DIR"), "/prefixes.odht"));
    let table = HashTable::<Prefixes, _>::try_from_raw_bytes(BytesOf(built_in))
        .expect("the build script's table");
    for code in ["is", "us", "xx"] {
        let number = <[u8; 2]>::try_from(code.as_bytes()).ok().and_then(|code| table.get(&code));
        println!("{code}: {number:?}");
    }
}
