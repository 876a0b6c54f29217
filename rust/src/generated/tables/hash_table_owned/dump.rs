// Generated from crates/odht/src/hash_table_owned/dump.rt by make generate.
//! What `Debug` writes of an owned table: the numbers of its header, and each slot on a line.

use super::HashTableOwned;
use crate::generated::tables::config::Config;
use crate::generated::tables::load::max_item_count_for;
use std::fmt;

impl<C: Config> HashTableOwned<C> {
    // Writes the numbers of the header on a line.
    fn write_counts(&self, f: &mut fmt::Formatter<'_>) -> fmt::Result {
        let header = self.table.allocation.header();
        let item_count = header.item_count();
        let factor = header.max_load_factor();
        let max_item_count = max_item_count_for(header.slot_count(), factor);
        let percent = factor.to_percent();
        writeln!(
            f,
            "(item_count={item_count}, max_item_count={max_item_count}, max_load_factor={percent}%)"
        )
    }
}

impl<C: Config> fmt::Debug for HashTableOwned<C> {
    // The numbers of the header on a line, the dump of the parts, and an empty line.
    fn fmt(&self, f: &mut fmt::Formatter<'_>) -> fmt::Result {
        self.write_counts(f)?;
        let table = self.table.as_raw();
        writeln!(f, "{table:?}")
    }
}
