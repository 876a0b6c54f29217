//! Creates the table that is embedded in the program.

use odht::HashTableOwned;
use std::path::Path;
use std::{env, fs};

include!("src/config.rs");

const PREFIXES: [(&[u8; 2], u16); 5] =
    [(b"at", 43), (b"ch", 41), (b"is", 354), (b"pt", 351), (b"us", 1)];

fn main() {
    println!("cargo:rerun-if-changed=build.rs");
    println!("cargo:rerun-if-changed=src/config.rs");
    let table: HashTableOwned<Prefixes> =
        PREFIXES.into_iter().map(|(code, number)| (*code, number)).collect();
    let folder = env::var_os("OUT_DIR").expect("cargo names a folder");
    fs::write(Path::new(&folder).join("prefixes.odht"), table.raw_bytes())
        .expect("it can be written");
}
