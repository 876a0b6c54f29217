// Generated from crates/odht/src/lookups.rt by make generate.
//! Lookups of many keys. A first look hashes a key and reads the group of control bytes at its
//! home. The first looks of eight keys are taken before any of their searches goes on, so that the
//! loads from memory overlap.

use crate::generated::tables::config::Config;
use crate::generated::tables::raw_table::{FirstLook, RawTable};

// How many first looks are taken before the searches go on, in keys.
const BATCH: usize = 8;

/// Where the results of many lookups go, each to a place with a number.
///
/// In a contract the ghost member `places` is how many places there are, and `after_put` what
/// there is after a result was put at one of them. [`get_all`] puts one result for each key, in
/// the order of the keys.
pub trait Answers<T> {
    /// Puts a result at an index.
    fn put(&mut self, index: usize, answer: T);
}

/// A slice, in which a result replaces what was at its index.
pub(crate) struct InSlice<'a, T> {
    pub(crate) answers: &'a mut [T],
}

impl<'a, T> Answers<T> for InSlice<'a, T> {
    #[inline(always)]
    fn put(&mut self, index: usize, answer: T) {
        index_mut!(self.answers[index], "index < places self.old") = answer;
    }
}

/// Puts the result of each key at its index: on the parts of a placed table the value for the key,
/// on any parts None or a value stored with this very key. There are at least as many places as
/// keys. Eight keys are taken at a time, then the rest one by one.
///
/// Each key is encoded twice, and hashed once. No group is read twice.
#[inline(always)]
pub fn get_all<C: Config, A: Answers<Option<C::Value>>>(
    raw: &RawTable<'_, C::EncodedKey, C::EncodedValue, C::H>,
    keys: &[C::Key],
    answers: &mut A,
) {
    let from = get_batches::<C, A>(raw, keys, answers);
    for index in from..keys.len() {
        let look = first_look_at::<C>(raw, keys, index);
        get_one::<C, A>(raw, look, keys, index, answers);
    }
}

// Puts the results of the keys of the full batches, and returns how many keys these are.
#[inline(always)]
fn get_batches<C: Config, A: Answers<Option<C::Value>>>(
    raw: &RawTable<'_, C::EncodedKey, C::EncodedValue, C::H>,
    keys: &[C::Key],
    answers: &mut A,
) -> usize {
    let batches = keys.len() / BATCH;
    for batch in 0..batches {
        get_eight::<C, A>(raw, keys, batch * BATCH, answers);
    }
    batches * BATCH
}

// Puts the results of the eight keys from an index on. It has no loop, so that the first looks
// stay in registers.
#[inline(always)]
fn get_eight<C: Config, A: Answers<Option<C::Value>>>(
    raw: &RawTable<'_, C::EncodedKey, C::EncodedValue, C::H>,
    keys: &[C::Key],
    from: usize,
    answers: &mut A,
) {
    let first = first_look_at::<C>(raw, keys, from);
    let second = first_look_at::<C>(raw, keys, from + 1);
    let third = first_look_at::<C>(raw, keys, from + 2);
    let fourth = first_look_at::<C>(raw, keys, from + 3);
    let fifth = first_look_at::<C>(raw, keys, from + 4);
    let sixth = first_look_at::<C>(raw, keys, from + 5);
    let seventh = first_look_at::<C>(raw, keys, from + 6);
    let eighth = first_look_at::<C>(raw, keys, from + 7);
    get_one::<C, A>(raw, first, keys, from, answers);
    get_one::<C, A>(raw, second, keys, from + 1, answers);
    get_one::<C, A>(raw, third, keys, from + 2, answers);
    get_one::<C, A>(raw, fourth, keys, from + 3, answers);
    get_one::<C, A>(raw, fifth, keys, from + 4, answers);
    get_one::<C, A>(raw, sixth, keys, from + 5, answers);
    get_one::<C, A>(raw, seventh, keys, from + 6, answers);
    get_one::<C, A>(raw, eighth, keys, from + 7, answers);
}

// Puts the result of the key at an index, from its first look.
#[inline(always)]
fn get_one<C: Config, A: Answers<Option<C::Value>>>(
    raw: &RawTable<'_, C::EncodedKey, C::EncodedValue, C::H>,
    look: FirstLook,
    keys: &[C::Key],
    index: usize,
    answers: &mut A,
) {
    answers.put(index, find_at::<C>(raw, look, keys, index));
}

// The first look of the search for the key at an index, which `find_at` continues. It reads one
// group of control bytes.
#[inline(always)]
fn first_look_at<C: Config>(
    raw: &RawTable<'_, C::EncodedKey, C::EncodedValue, C::H>,
    keys: &[C::Key],
    index: usize,
) -> FirstLook {
    raw.first_look(&C::encode_key(&index!(keys[index], "index < length keys.now")))
}

// The value of the key at an index, from its first look by `first_look_at`. The key is encoded
// again.
#[inline(always)]
fn find_at<C: Config>(
    raw: &RawTable<'_, C::EncodedKey, C::EncodedValue, C::H>,
    look: FirstLook,
    keys: &[C::Key],
    index: usize,
) -> Option<C::Value> {
    let key = C::encode_key(&index!(keys[index], "index < length keys.now"));
    match raw.find_from(look, &key) {
        Some(value) => Some(C::decode_value(&value)),
        None => None,
    }
}
