//! Threads that read one table. There is no lock, since nobody writes to it. A table that several
//! threads own is in an `Arc`.
//!
//!     cargo run --example threads

use odht::{HashTable, HashTableOwned};
use std::sync::Arc;
use std::thread;

odht::config! { Doubled: u64 => u64, by Fx }

fn main() -> Result<(), Box<dyn std::error::Error + Send + Sync>> {
    let table: HashTableOwned<Doubled> = (0..100_000).map(|n| (n, 2 * n)).collect();

    // Views of borrowed bytes are copied into threads that end before the table is dropped.
    let view = HashTable::<Doubled, &[u8]>::try_from_raw_bytes(table.raw_bytes())?;
    let sum: u64 = thread::scope(|scope| {
        let parts: Vec<_> = (0..4)
            .map(|part| {
                scope.spawn(move || {
                    (part..100_000).step_by(4).filter_map(|n| view.get(&n)).sum::<u64>()
                })
            })
            .collect();
        parts.into_iter().map(|part| part.join().expect("no part panics")).sum()
    });
    println!("the values add up to {sum}");

    // Bytes that several threads own together.
    let bytes: Arc<[u8]> = table.into_raw_bytes().into();
    let shared = HashTable::<Doubled, Arc<[u8]>>::try_from_raw_bytes(bytes)?;
    let other = shared.clone();
    let found = thread::spawn(move || other.get(&21)).join().expect("it does not panic");
    println!("another thread found {found:?}, and this one {:?}", shared.get(&4));
    Ok(())
}
