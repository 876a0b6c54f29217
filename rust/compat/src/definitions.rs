//! A map from the hash of a definition's path to the definition's index, as a compiler keeps it: it grows while the
//! crate is compiled, is written into the crate's metadata, and is read there without being decoded.

use odht::{Config, HashTable, HashTableOwned, UnHashFn};
use std::borrow::Borrow;
use std::rc::Rc;

/// The hash of a definition's path within its crate.
#[derive(Clone, Copy, PartialEq, Eq, Debug)]
pub struct PathHash(pub u64);

/// The index of a definition.
#[derive(Clone, Copy, PartialEq, Eq, PartialOrd, Ord, Debug)]
pub struct Index(pub u32);

pub struct Definitions;

impl Config for Definitions {
    type Key = PathHash;
    type Value = Index;

    type EncodedKey = [u8; 8];
    type EncodedValue = [u8; 4];

    // A hash is not hashed again.
    type H = UnHashFn;

    #[inline]
    fn encode_key(k: &PathHash) -> [u8; 8] {
        k.0.to_le_bytes()
    }

    #[inline]
    fn encode_value(v: &Index) -> [u8; 4] {
        v.0.to_le_bytes()
    }

    #[inline]
    fn decode_key(k: &[u8; 8]) -> PathHash {
        PathHash(u64::from_le_bytes(*k))
    }

    #[inline]
    fn decode_value(v: &[u8; 4]) -> Index {
        Index(u32::from_le_bytes(*v))
    }
}

/// A part of a crate's metadata, which is kept as long as anyone has a part of it.
#[derive(Clone)]
pub struct Part {
    metadata: Rc<Vec<u8>>,
    begin: usize,
    end: usize,
}

impl Borrow<[u8]> for Part {
    fn borrow(&self) -> &[u8] {
        &self.metadata[self.begin..self.end]
    }
}

/// The map of the crate that is being compiled, or that of another crate.
pub enum Map<'tcx> {
    Compiled(&'tcx HashTableOwned<Definitions>),
    Metadata(HashTable<Definitions, Part>),
}

impl<'tcx> Map<'tcx> {
    /// The index of a hash, if the crate has the definition.
    #[inline]
    pub fn index_of(&self, hash: &PathHash) -> Option<Index> {
        match *self {
            Map::Compiled(map) => map.get(hash),
            Map::Metadata(ref map) => map.get(hash),
        }
    }

    /// All hashes and indices, in the order of the indices.
    pub fn sorted(&self) -> Vec<(Index, PathHash)> {
        let mut all: Vec<(Index, PathHash)> = match self {
            Map::Compiled(map) => map.iter().map(|(hash, index)| (index, hash)).collect(),
            Map::Metadata(map) => map.iter().map(|(hash, index)| (index, hash)).collect(),
        };
        all.sort_by_key(|(index, _)| *index);
        all
    }

    /// Appends the map to the metadata: its length, then its bytes.
    pub fn write(&self, metadata: &mut Vec<u8>) {
        let bytes = match self {
            Map::Compiled(map) => map.raw_bytes(),
            Map::Metadata(map) => map.raw_bytes(),
        };
        metadata.extend_from_slice(&(bytes.len() as u64).to_le_bytes());
        metadata.extend_from_slice(bytes);
    }

    /// The map that was written at a place of the metadata.
    pub fn read(metadata: &Rc<Vec<u8>>, place: usize) -> Map<'static> {
        let mut length = [0; 8];
        length.copy_from_slice(&metadata[place..place + 8]);
        let begin = place + 8;
        let end = begin + u64::from_le_bytes(length) as usize;
        let part = Part { metadata: Rc::clone(metadata), begin, end };
        let map = HashTable::from_raw_bytes(part);
        Map::Metadata(map.unwrap_or_else(|error| panic!("metadata cannot be read: {}", error)))
    }
}

/// The map of these hashes: the first has the index 0.
pub fn collect(hashes: impl IntoIterator<Item = PathHash>) -> HashTableOwned<Definitions> {
    let mut map = HashTableOwned::default();
    for (index, hash) in hashes.into_iter().enumerate() {
        let former = map.insert(&hash, &Index(index as u32));
        assert!(former.is_none(), "two definitions have the hash {:?}", hash);
    }
    map
}

/// So many hashes that look random, each once.
pub fn hashes(count: u64) -> impl Iterator<Item = PathHash> {
    (0..count).map(|index| {
        let mixed = (index ^ (index >> 30)).wrapping_mul(0xbf58_476d_1ce4_e5b9);
        let mixed = (mixed ^ (mixed >> 27)).wrapping_mul(0x94d0_49bb_1331_11eb);
        PathHash(mixed ^ (mixed >> 31))
    })
}
