//! Tables in bytes of the caller, a hash function and a set of one's own, and functions for any configuration.

use odht::{bytes_needed, Config, HashFn, HashTable, HashTableOwned, Iter};
use std::borrow::{Borrow, BorrowMut};
use std::error::Error;

/// The sum of the bytes, in all of the hash's bits.
#[derive(PartialEq, Eq)]
pub struct Sum;

impl HashFn for Sum {
    fn hash(bytes: &[u8]) -> u32 {
        let sum = bytes.iter().fold(0_u32, |sum, byte| sum.wrapping_add(u32::from(*byte)));
        sum.wrapping_mul(0x0101_0101)
    }
}

/// A set of words of up to seven letters.
pub enum Words {}

impl Config for Words {
    type Key = String;
    type Value = ();
    type EncodedKey = [u8; 7];
    type EncodedValue = [u8; 0];
    type H = Sum;

    fn encode_key(k: &String) -> [u8; 7] {
        let mut bytes = [0; 7];
        bytes[..k.len()].copy_from_slice(k.as_bytes());
        bytes
    }

    fn encode_value(_: &()) -> [u8; 0] {
        []
    }

    fn decode_key(k: &[u8; 7]) -> String {
        String::from_utf8_lossy(k).trim_end_matches('\0').to_owned()
    }

    fn decode_value(_: &[u8; 0]) {}
}

/// The set of these words, in bytes that are as long as it needs.
pub fn set_of(words: &[&str]) -> Result<Vec<u8>, Box<dyn Error>> {
    let mut bytes = vec![0xff; bytes_needed::<Words>(words.len(), 80)];
    let mut set = HashTable::<Words, &mut [u8]>::init_in_place(&mut bytes[..], words.len(), 80)?;
    for word in words {
        set.insert(&word.to_string(), &());
    }
    Ok(bytes)
}

/// The pairs of a walk, each as its encoded key.
pub fn encoded<C: Config>(pairs: Iter<'_, C>) -> Vec<C::EncodedKey> {
    pairs.map(|(key, _)| C::encode_key(&key)).collect()
}

/// How many of the keys are there.
pub fn count_of<C: Config, D: Borrow<[u8]>>(table: &HashTable<C, D>, keys: &[C::Key]) -> usize {
    keys.iter().filter(|key| table.contains_key(key)).count()
}

/// Inserts all pairs of another table.
pub fn add_all<C, D>(table: &mut HashTable<C, D>, other: &HashTableOwned<C>)
where
    C: Config,
    D: Borrow<[u8]> + BorrowMut<[u8]>,
{
    for (key, value) in other.iter() {
        table.insert(&key, &value);
    }
}

/// A view of bytes that were opened before.
///
/// # Safety
///
/// The bytes are those of a table of this configuration.
pub unsafe fn open_again<C: Config>(bytes: &[u8]) -> HashTable<C, &[u8]> {
    HashTable::from_raw_bytes_unchecked(bytes)
}

/// A copy that owns its bytes.
///
/// # Safety
///
/// The bytes are those of a table of this configuration.
pub unsafe fn own_again<C: Config>(bytes: &[u8]) -> HashTableOwned<C> {
    HashTableOwned::from_raw_bytes_unchecked(bytes)
}

/// The text of the error with which bytes are rejected.
pub fn error_of<C: Config>(bytes: &[u8]) -> Option<String> {
    let result: Result<HashTable<C, &[u8]>, Box<dyn Error>> = HashTable::from_raw_bytes(bytes);
    result.err().map(|error| error.to_string())
}

/// `Clone` and `Copy` are there for configurations that have them.
pub fn twice<C: Config + Clone + Copy, D: Borrow<[u8]> + Copy>(
    table: HashTable<C, D>,
) -> [HashTable<C, D>; 2] {
    [table, Clone::clone(&table)]
}
