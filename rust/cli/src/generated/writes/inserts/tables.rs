// Generated from crates/odht_tool_writes/src/inserts/tables.rt by make generate.
//! Inserts into the tables of configurations, and of lengths that are known only at run time.

use super::Inserts;
use crate::generated::core::failure::Failure;
use crate::generated::core::pairs::{BytePairs, Pairs};
use crate::generated::core::text::Text;
use crate::generated::tables::config::Config;
use crate::generated::tables::dynamic::{DynTableOwned, Layout};
use crate::generated::tables::hash::HashFn;
use crate::generated::tables::load::Percent;
use crate::generated::tables::HashTableOwned;
use crate::generated::writes::starts::{copy_lengths, copy_table, make_lengths, make_table};
use crate::host::prelude::*;
use crate::shim::Global;

impl<C: Config> Inserts for HashTableOwned<C>
where
    C::Key: Text,
    C::Value: Text,
{
    type Pairs = Vec<(C::Key, C::Value)>;

    fn empty(
        alloc: Global,
        _layout: Layout,
        capacity: usize,
        percent: Percent,
    ) -> Result<HashTableOwned<C>, Failure> {
        make_table(alloc, capacity, percent)
    }

    fn copy(
        alloc: Global,
        _layout: Layout,
        bytes: Vec<u8>,
        bound: Option<usize>,
    ) -> Result<HashTableOwned<C>, Failure> {
        copy_table(alloc, bytes, bound)
    }

    fn insert_pairs(&mut self, pairs: &Vec<(C::Key, C::Value)>) -> Result<(), Failure> {
        insert_all(self, pairs.as_slice())
    }

    fn insert_new(
        &mut self,
        pairs: &Vec<(C::Key, C::Value)>,
        index: usize,
    ) -> Result<bool, Failure> {
        let (key, value) = &pairs[index];
        insert_absent(self, key, value)
    }

    fn pair_count(&self) -> usize {
        self.len()
    }

    fn all_bytes(&self) -> &[u8] {
        self.raw_bytes()
    }
}

fn insert_all<C: Config>(
    table: &mut HashTableOwned<C>,
    pairs: &[(C::Key, C::Value)],
) -> Result<(), Failure> {
    let (_, inserted) = table.insert_all(pairs);
    match inserted {
        Ok(()) => Ok(()),
        Err(_) => Err(Failure::Memory),
    }
}

// Inserts the pair where its key has no value, and returns whether that is so.
fn insert_absent<C: Config>(
    table: &mut HashTableOwned<C>,
    key: &C::Key,
    value: &C::Value,
) -> Result<bool, Failure> {
    if table.contains_key(key) {
        return Ok(false);
    }
    match table.insert(key, value) {
        Ok(_) => Ok(true),
        Err(_) => Err(Failure::Memory),
    }
}

impl<H: HashFn> Inserts for DynTableOwned<H> {
    type Pairs = BytePairs;

    fn empty(
        alloc: Global,
        layout: Layout,
        capacity: usize,
        percent: Percent,
    ) -> Result<DynTableOwned<H>, Failure> {
        make_lengths(alloc, layout, capacity, percent)
    }

    fn copy(
        alloc: Global,
        layout: Layout,
        bytes: Vec<u8>,
        bound: Option<usize>,
    ) -> Result<DynTableOwned<H>, Failure> {
        copy_lengths(alloc, layout, bytes, bound)
    }

    fn insert_pairs(&mut self, pairs: &BytePairs) -> Result<(), Failure> {
        insert_each(self, pairs)
    }

    fn insert_new(&mut self, pairs: &BytePairs, index: usize) -> Result<bool, Failure> {
        let (key, value) = pairs.at(index);
        insert_absent_bytes(self, key, value)
    }

    fn pair_count(&self) -> usize {
        self.len()
    }

    fn all_bytes(&self) -> &[u8] {
        self.raw_bytes()
    }
}

fn insert_each<H: HashFn>(table: &mut DynTableOwned<H>, pairs: &BytePairs) -> Result<(), Failure> {
    for index in 0..pairs.count() {
        let (key, value) = pairs.at(index);
        // Keys and values of the lines have the lengths of the table.
        if let Err(_) = table.insert(key, value) {
            return Err(Failure::Memory);
        }
    }
    Ok(())
}

// The same of a table of lengths that are known only at run time, which those of the key and the
// value are.
fn insert_absent_bytes<H: HashFn>(
    table: &mut DynTableOwned<H>,
    key: &[u8],
    value: &[u8],
) -> Result<bool, Failure> {
    let is_known = table.contains_key(key);
    if is_known {
        return Ok(false);
    }
    match table.insert(key, value) {
        Ok(_) => Ok(true),
        Err(_) => Err(Failure::Memory),
    }
}
