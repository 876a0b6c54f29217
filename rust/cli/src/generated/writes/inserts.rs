// Generated from crates/odht_tool_writes/src/inserts.rt by make generate.
//! Pairs of lines that are inserted into a table, a batch at a time.

use crate::generated::core::arguments::Duplicates;
use crate::generated::core::failure::Failure;
use crate::generated::core::forms::Forms;
use crate::generated::core::line_messages::line_message;
use crate::generated::core::lines::add_pair;
use crate::generated::core::pairs::Pairs;
use crate::generated::core::progress::Watch;
use crate::generated::core::text::Text;
use crate::generated::tables::dynamic::Layout;
use crate::generated::tables::load::Percent;
use crate::generated::writes::reports::{with_line, LineReports, BATCH};
use crate::host::prelude::*;
use crate::host::rt::Clock;
use crate::shim::Global;
use std::io::{BufRead, Write};

pub mod lines;
mod tables;

/// What a run over lines is given beside its table and its streams.
pub struct LineJob<'a, R, F> {
    /// The system, which allocates and has the clock.
    pub rt: &'a R,
    /// The lengths of keys and values.
    pub layout: Layout,
    /// The forms of keys and values, and the byte between them.
    pub forms: F,
    /// Which pair of a key counts.
    pub duplicates: Duplicates,
    /// Whether lines of progress are requested.
    pub watch: Watch,
}

/// A table that grows, into which pairs are inserted that have texts.
pub trait Inserts: Sized {
    /// Pairs that are inserted.
    type Pairs: Pairs;

    /// An empty table of these lengths, for that many items.
    fn empty(
        alloc: Global,
        layout: Layout,
        capacity: usize,
        percent: Percent,
    ) -> Result<Self, Failure>;

    /// The table of these bytes, which has these lengths. They are checked whole before, with the
    /// bound of searches where there is one, and freed once the table has a copy.
    fn copy(
        alloc: Global,
        layout: Layout,
        bytes: Vec<u8>,
        bound: Option<usize>,
    ) -> Result<Self, Failure>;

    /// Inserts the pairs in turn. `Memory` where there is none for a larger table.
    fn insert_pairs(&mut self, pairs: &Self::Pairs) -> Result<(), Failure>;

    /// Inserts the pair at this index where its key has no value, and returns whether that is so.
    /// `Memory` where there is none for a larger table.
    fn insert_new(&mut self, pairs: &Self::Pairs, index: usize) -> Result<bool, Failure>;

    /// How many pairs the table has.
    fn pair_count(&self) -> usize;

    /// All bytes.
    fn all_bytes(&self) -> &[u8];
}

// Inserts the pairs of the lines, a batch at a time. Inlined it would take more instructions.
#[inline(never)]
fn fill<T: Inserts, F: Forms, R: AllocGlobal + Clock, I: BufRead, E: Write>(
    job: &LineJob<'_, R, F>,
    table: &mut T,
    input: &mut I,
    errors: &mut E,
) -> Result<(), Failure> {
    let mut reports = LineReports::new(job.rt, job.watch);
    let (alloc, forms): (Global, F) = (job.rt.alloc(), job.forms);
    let mut pairs = T::Pairs::none(alloc, job.layout);
    let mut line = crate::host::lists::empty(alloc);
    let mut bytes: u64 = 0;
    for number in 1..u64::MAX {
        if !next_pair(alloc, input, &mut line, number, forms, &mut pairs)? {
            insert_and_clear(table, &mut pairs)?;
            reports.end(number, table.pair_count(), bytes, errors);
            break;
        }
        bytes = with_line(bytes, line.as_slice());
        if pairs.count() >= BATCH {
            insert_and_clear(table, &mut pairs)?;
            reports.report(number, table.pair_count(), bytes, errors);
        }
    }
    insert_and_clear(table, &mut pairs)
}

// Adds the pair of the next line, which has this number, or returns what is said of the line.
#[inline(always)]
fn next_pair<P: Pairs, F: Forms, I: BufRead>(
    alloc: Global,
    input: &mut I,
    line: &mut Vec<u8>,
    number: u64,
    forms: F,
    pairs: &mut P,
) -> Result<bool, Failure> {
    match add_pair(input, line, number, forms, pairs) {
        Ok(read) => Ok(read),
        Err(failure) => Err(told::<P, F>(alloc, failure, line.as_slice(), forms)),
    }
}

// The failure with what is said of this line, where the line cannot be parsed.
#[cold]
#[inline(never)]
fn told<P: Pairs, F: Forms>(alloc: Global, failure: Failure, line: &[u8], forms: F) -> Failure {
    match failure {
        Failure::Line { number, fault } => {
            let wanted = (P::Key::wanted(forms.key()), P::Value::wanted(forms.value()));
            match line_message(alloc, number, fault, wanted, line, forms.delimiter()) {
                Ok(message) => Failure::Misread(message),
                Err(_) => Failure::Memory,
            }
        }
        _ => failure,
    }
}

// Inserts the pairs, and drops them.
fn insert_and_clear<T: Inserts>(table: &mut T, pairs: &mut T::Pairs) -> Result<(), Failure> {
    let inserted = table.insert_pairs(pairs);
    pairs.remove_all();
    inserted
}
