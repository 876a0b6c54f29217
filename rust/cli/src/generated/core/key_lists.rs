// Generated from crates/odht_tool_core/src/key_lists.rt by make generate.
//! The keys of words or lines, which are parsed one after the other: of a type, or bytes in one
//! buffer.

use crate::generated::core::dynamic_bytes::read_bytes;
use crate::generated::core::forms::Form;
use crate::generated::core::text::Text;
use crate::generated::header::layout::{Layout, Lengths};
use crate::generated::raw::raw_table::ShortBytes;
use crate::host::prelude::*;
use crate::shim::Global;

/// What became of the text of a key.
#[derive(Clone, Copy)]
pub enum KeyAdded {
    /// Its key was added.
    Key,
    /// It is the text of no key.
    NoKey,
    /// There was no memory for its key.
    NoMemory,
}

/// Keys, of which each is added by its text.
pub trait Keys: Sized {
    /// A key.
    type Key: Text;

    /// No keys. The length is that of each.
    fn none(alloc: Global, key_len: u8) -> Self;

    /// How many keys there are.
    fn count(&self) -> usize;

    /// Removes all keys.
    fn remove_all(&mut self);

    /// Adds the key that the word is the text of.
    fn add(&mut self, word: &[u8], form: Form) -> KeyAdded;
}

impl<K: Text> Keys for Vec<K> {
    type Key = K;

    fn none(alloc: Global, _key_len: u8) -> Vec<K> {
        crate::host::lists::empty(alloc)
    }

    #[inline(always)]
    fn count(&self) -> usize {
        self.len()
    }

    #[inline(always)]
    fn remove_all(&mut self) {
        self.clear()
    }

    #[inline(always)]
    fn add(&mut self, word: &[u8], form: Form) -> KeyAdded {
        match K::parse(word, form) {
            Some(key) => match self.try_push(key) {
                Ok(()) => KeyAdded::Key,
                Err(_) => KeyAdded::NoMemory,
            },
            None => KeyAdded::NoKey,
        }
    }
}

/// Keys of bytes of a length that is known only at run time, one after the other in one buffer.
///
/// In a contract it is the list of these keys.
pub struct ByteKeys {
    bytes: Vec<u8>,
    count: usize,
    key_len: u8,
}

impl ByteKeys {
    /// The key at an index.
    #[inline]
    pub fn at(&self, index: usize) -> &[u8] {
        let layout = Layout { key_len: self.key_len, value_len: 0 };
        layout.entry(self.bytes.as_slice(), index)
    }
}

impl Keys for ByteKeys {
    type Key = ShortBytes;

    fn none(alloc: Global, key_len: u8) -> ByteKeys {
        ByteKeys { bytes: crate::host::lists::empty(alloc), count: 0, key_len }
    }

    fn count(&self) -> usize {
        self.count
    }

    fn remove_all(&mut self) {
        self.bytes.clear();
        self.count = 0;
    }

    fn add(&mut self, word: &[u8], form: Form) -> KeyAdded {
        // The words are texts of keys of the table.
        if form.part().size() != self.key_len || self.count == usize::MAX {
            return KeyAdded::NoMemory;
        }
        let mut key = [0; 255];
        let key = &mut key[..self.key_len as usize];
        if !read_bytes(word, form, key) {
            return KeyAdded::NoKey;
        }
        match self.bytes.try_extend_from_slice(key) {
            Ok(()) => {
                self.count += 1;
                KeyAdded::Key
            }
            Err(_) => KeyAdded::NoMemory,
        }
    }
}
