// Generated from crates/odht/src/insert_order.rt by make generate.
//! An order of inserts that makes a table.

use crate::generated::tables::bytes::ByteStore;
use crate::generated::tables::config::Config;
use crate::generated::tables::dynamic::DynTable;
use crate::generated::tables::hash::HashFn;
use crate::generated::tables::hash_table_owned::HashTableOwned;

impl<C: Config> HashTableOwned<C> {
    /// Returns whether some list of inserts, growths included, makes this table from an empty one
    /// with the same load factor. Then `out` lists the occupied slots in an insert order: if you
    /// insert their pairs in this order into an empty table with the same slot count and load
    /// factor, it gets exactly these bytes. Otherwise the numbers in `out` have no meaning.
    /// docs/PROOFS.md, "Orders of inserts", has the definitions.
    ///
    /// The length of `out` is the item count. The call allocates nothing. It makes at most `n + 1`
    /// passes over the items, if `n` slots must be listed after one with a higher index.
    /// docs/PERF.md lists what an item costs.
    pub fn insert_order(&self, out: &mut [usize]) -> bool {
        self.table.as_raw().insert_order(out)
    }

    /// Like `insert_order`, for untrusted tables: it uses `scratch` as working memory, and returns
    /// the same result. `scratch` has at least the length that `insert_order_scratch` returns, and
    /// may contain any numbers. With a shorter one the call does what `insert_order` does, in the
    /// same time. The clauses state that `out` lists an insert order. That it is the same one is
    /// tested.
    ///
    /// The call allocates nothing. Its time is proportional to the number of slots, and to the
    /// groups that the longest search of each home reads: with a bound of `g` groups, to `g` times
    /// the slots. Tests check that it does not end by a call of `insert_order`; the contract does
    /// not state it. If most keys are near their homes, `insert_order` is faster.
    pub fn insert_order_with(&self, out: &mut [usize], scratch: &mut [usize]) -> bool {
        self.table.as_raw().insert_order_with(out, scratch)
    }

    /// Returns the length of the scratch that `insert_order_with` needs: three numbers for each
    /// slot.
    pub fn insert_order_scratch(&self) -> usize {
        self.table.as_raw().insert_order_scratch()
    }
}

impl<H: HashFn, D: ByteStore> DynTable<H, D> {
    /// Lists the occupied slots in an order of inserts that makes this table, and returns whether
    /// there is one, like [`HashTableOwned::insert_order`]. The bytes must be valid
    /// ([`DynTable::verify`]): for others the result and `out` have no meaning.
    pub fn insert_order(&self, out: &mut [usize]) -> bool {
        self.as_dynamic().insert_order(out)
    }

    /// Like `insert_order`, for untrusted tables: its time has a bound, as that of
    /// [`HashTableOwned::insert_order_with`]. The bytes must be valid ([`DynTable::verify`]): for
    /// others the result and `out` have no meaning.
    pub fn insert_order_with(&self, out: &mut [usize], scratch: &mut [usize]) -> bool {
        self.as_dynamic().insert_order_with(out, scratch)
    }

    /// Returns the length of the scratch that `insert_order_with` needs: three numbers for each
    /// slot.
    pub fn insert_order_scratch(&self) -> usize {
        self.as_dynamic().insert_order_scratch()
    }
}
