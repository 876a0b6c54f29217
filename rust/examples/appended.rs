//! A table at the end of another file, such as a program or an archive. The table is appended, and
//! after it eight bytes with the offset of its first byte. This offset may be any number.
//!
//!     cargo run --example appended

use odht::{HashTable, HashTableOwned};

odht::config! { Offsets: [u8; 8] => u32, by Xxh64 }

type View<'b> = HashTable<Offsets, &'b [u8]>;

/// Appends a table to a file.
fn append(file: &mut Vec<u8>, table: &HashTableOwned<Offsets>) {
    let begin = file.len() as u64;
    file.extend_from_slice(table.raw_bytes());
    file.extend_from_slice(&begin.to_le_bytes());
}

/// Opens the table at the end of a file. Returns it with the bytes before it, or `None` if there is
/// no table.
fn open(file: &[u8]) -> Option<(View<'_>, &[u8])> {
    let (rest, begin) = file.split_last_chunk::<8>()?;
    let begin = usize::try_from(u64::from_le_bytes(*begin)).ok()?;
    let (before, bytes) = (rest.get(..begin)?, rest.get(begin..)?);
    Some((View::try_from_raw_bytes(bytes).ok()?, before))
}

fn main() {
    let mut file = b"what a linker has written".to_vec();
    let before = file.len();
    append(&mut file, &[(*b"_start\0\0", 0), (*b"main\0\0\0\0", 5)].into());

    let (table, others) = open(&file).expect("a table");
    println!("{} of {} bytes are others", others.len(), file.len());
    println!(
        "main is at {:?}, exit at {:?}",
        table.get(b"main\0\0\0\0"),
        table.get(b"exit\0\0\0\0")
    );

    // If you know the offset, for example from a header of the file, you need no length. The
    // table's own header states where it ends, and `open_prefix` returns the bytes that follow.
    let (table, rest) = View::open_prefix(&file[before..]).expect("a table");
    println!("{} items, and {} bytes behind the table", table.len(), rest.len());
    println!("without a table: {}", open(b"what a linker has written").is_none());
}
