// Generated from crates/odht_tool_core/src/pairs.rt by make generate.
//! The pairs of lines, which are parsed one after the other: of types, or bytes in one buffer.

use crate::generated::core::dynamic_bytes::read_bytes;
use crate::generated::core::failure::LineFault;
use crate::generated::core::forms::Forms;
use crate::generated::core::text::Text;
use crate::generated::header::layout::{Layout, Lengths};
use crate::generated::raw::raw_table::ShortBytes;
use crate::host::prelude::*;
use crate::shim::Global;

/// What became of a pair of texts.
#[derive(Clone, Copy)]
pub enum Added {
    /// It was added.
    Pair,
    /// It is none, for this reason.
    Fault(LineFault),
    /// There was no memory for it.
    NoMemory,
}

/// Pairs of keys and values, of which each is added by its texts.
pub trait Pairs: Sized {
    /// A key.
    type Key: Text;

    /// A value.
    type Value: Text;

    /// No pairs. The lengths are those of keys and values.
    fn none(alloc: Global, layout: Layout) -> Self;

    /// How many pairs there are.
    fn count(&self) -> usize;

    /// Removes all pairs.
    fn remove_all(&mut self);

    /// Adds the pair whose key and value have these texts.
    fn add<F: Forms>(&mut self, key: &[u8], value: &[u8], forms: F) -> Added;
}

impl<K: Text, V: Text> Pairs for Vec<(K, V)> {
    type Key = K;

    type Value = V;

    fn none(alloc: Global, _layout: Layout) -> Vec<(K, V)> {
        crate::host::lists::empty(alloc)
    }

    #[inline(always)]
    fn count(&self) -> usize {
        self.len()
    }

    #[inline(always)]
    fn remove_all(&mut self) {
        self.clear()
    }

    #[inline(always)]
    fn add<F: Forms>(&mut self, key: &[u8], value: &[u8], forms: F) -> Added {
        let Some(key) = K::parse(key, forms.key()) else {
            return Added::Fault(LineFault::Key);
        };
        let Some(value) = V::parse(value, forms.value()) else {
            return Added::Fault(LineFault::Value);
        };
        match self.try_push((key, value)) {
            Ok(()) => Added::Pair,
            Err(_) => Added::NoMemory,
        }
    }
}

/// Pairs of bytes of two lengths that are known only at run time, one after the other in one
/// buffer.
///
/// In a contract it is the list of these pairs.
pub struct BytePairs {
    bytes: Vec<u8>,
    count: usize,
    layout: Layout,
}

impl BytePairs {
    /// The key and the value at an index.
    #[inline]
    pub fn at(&self, index: usize) -> (&[u8], &[u8]) {
        let pair = self.layout.entry(self.bytes.as_slice(), index);
        pair.split_at(self.layout.key_len as usize)
    }
}

impl Pairs for BytePairs {
    type Key = ShortBytes;

    type Value = ShortBytes;

    fn none(alloc: Global, layout: Layout) -> BytePairs {
        BytePairs { bytes: crate::host::lists::empty(alloc), count: 0, layout }
    }

    fn count(&self) -> usize {
        self.count
    }

    fn remove_all(&mut self) {
        self.bytes.clear();
        self.count = 0;
    }

    fn add<F: Forms>(&mut self, key: &[u8], value: &[u8], forms: F) -> Added {
        let (key_form, value_form) = (forms.key(), forms.value());
        // Keys and values of the lines have the lengths of the table.
        if key_form.part().size() != self.layout.key_len
            || value_form.part().size() != self.layout.value_len
            || self.count == usize::MAX
        {
            return Added::NoMemory;
        }
        let (key_len, value_len) = (self.layout.key_len as usize, self.layout.value_len as usize);
        let mut pair = [0; 510];
        let pair = &mut pair[..key_len + value_len];
        if let Err(fault) = read_sides(key, value, forms, key_len, pair) {
            return Added::Fault(fault);
        }
        match self.bytes.try_extend_from_slice(pair) {
            Ok(()) => {
                self.count += 1;
                Added::Pair
            }
            Err(_) => Added::NoMemory,
        }
    }
}

// Reads the bytes of both words, those of the key into the first ones, or returns which one is no
// text in its form.
#[inline(always)]
fn read_sides<F: Forms>(
    key: &[u8],
    value: &[u8],
    forms: F,
    key_len: usize,
    bytes: &mut [u8],
) -> Result<(), LineFault> {
    let (key_bytes, value_bytes) = bytes.split_at_mut(key_len);
    if !read_bytes(key, forms.key(), key_bytes) {
        return Err(LineFault::Key);
    }
    if !read_bytes(value, forms.value(), value_bytes) {
        return Err(LineFault::Value);
    }
    Ok(())
}
