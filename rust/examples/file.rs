//! A table in a file. Creates a table, writes it to a new file, and renames this file to its place.
//! Then reads and searches it, and adds a pair.
//!
//!     cargo run --example file [FOLDER]
//!
//! The file is first read, and then mapped. `Mmap` replaces the type of the crate `memmap2`, and
//! has the same traits. Nobody may write to a file while it is mapped.

use odht::{BytesOf, HashTable, HashTableOwned};
use std::error::Error;
use std::path::{Path, PathBuf};
use std::{env, fs};

odht::config! { Squares: u32 => u64, by Fx }

// The old file stays complete until all new bytes are written.
fn store(bytes: &[u8], file: &Path) -> std::io::Result<()> {
    let beside = file.with_extension("new");
    fs::write(&beside, bytes)?;
    fs::rename(&beside, file)
}

fn square(file: &Path, number: u32) -> Result<Option<u64>, Box<dyn Error + Send + Sync>> {
    let bytes = fs::read(file)?;
    let table = HashTable::<Squares, _>::try_from_raw_bytes(BytesOf(&bytes))?;
    Ok(table.get(&number))
}

struct Mmap(Vec<u8>);

impl Mmap {
    // In `memmap2` this function is unsafe, since another process can change the mapped file.
    fn map(file: &Path) -> std::io::Result<Mmap> {
        fs::read(file).map(Mmap)
    }
}

impl AsRef<[u8]> for Mmap {
    fn as_ref(&self) -> &[u8] {
        &self.0
    }
}

/// A table that owns its mapping.
type Mapped = HashTable<Squares, BytesOf<Mmap>>;

fn open(file: &Path) -> Result<Mapped, Box<dyn Error + Send + Sync>> {
    Ok(Mapped::try_from_raw_bytes(BytesOf(Mmap::map(file)?))?)
}

fn main() -> Result<(), Box<dyn Error + Send + Sync>> {
    let folder = env::args_os().nth(1).map_or_else(env::temp_dir, PathBuf::from);
    let file = folder.join(format!("squares-{}.odht", std::process::id()));

    let table: HashTableOwned<Squares> = (1..=100).map(|n| (n, u64::from(n).pow(2))).collect();
    store(table.raw_bytes(), &file)?;
    println!("the square of 12 is {:?}, of 101 {:?}", square(&file, 12)?, square(&file, 101)?);

    // All bytes are checked before a table is changed.
    let mut table = HashTableOwned::<Squares>::try_from_raw_bytes(&fs::read(&file)?)?;
    table.insert(&101, &(101 * 101));
    store(table.raw_bytes(), &file)?;
    println!("the square of 101 is {:?}", square(&file, 101)?);

    let mapped = open(&file)?;
    println!("mapped, it has {} squares, and that of 100 is {:?}", mapped.len(), mapped.get(&100));

    fs::remove_file(&file)?;
    Ok(())
}
