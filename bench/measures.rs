//! What is measured of each kind of table, and beside what.

use crate::maps::{self, AsTable, Own};
use crate::measure::{Job, Measure};
use crate::order;
use crate::ours::{self, Calls};
use crate::pages;
use crate::run::Run;
use crate::work::{Work, Written};
#[cfg(original)]
use crate::{called, original};

/// Keys that every contender has tables for.
#[cfg(original)]
pub trait Contest: Calls + original::Configured {}
#[cfg(not(original))]
pub trait Contest: Calls {}

impl Contest for u64 {}
impl Contest for [u8; 16] {}

/// The original's job where it is built in.
macro_rules! original_job {
    ($job:ident) => {{
        #[cfg(original)]
        let job: Option<Job<_>> = Some(original::$job);
        #[cfg(not(original))]
        let job: Option<Job<_>> = None;
        job
    }};
}

/// The original's three calls that are called so, where it is built in.
macro_rules! original_calls {
    ($kept:ident, $unchecked:ident, $checked:ident) => {{
        #[cfg(original)]
        let calls: Option<[Job<_>; 3]> =
            Some([called::$kept, called::$unchecked, called::$checked]);
        #[cfg(not(original))]
        let calls: Option<[Job<_>; 3]> = None;
        calls
    }};
}

/// The jobs of the two maps that are called so.
macro_rules! map_jobs {
    ($job:ident) => {
        Some([maps::$job::<_, Own>, maps::$job::<_, AsTable>])
    };
}

fn presized<K: Contest>() -> Measure<K> {
    Measure::new(Written::Table)
        .way("presized, insert_all", ours::insert_all)
        .way("presized, insert from C", ours::insert)
        .beside(original_job!(insert_presized), map_jobs!(insert_presized))
        .beside_calls(original_calls!(
            insert_kept,
            insert_unchecked,
            insert_checked
        ))
}

/// A further call that looks keys up is one more job of `ours`, and one more line here and below.
fn hits<K: Contest>() -> Measure<K> {
    Measure::new(Written::Answers)
        .way("hits, get_all", ours::get_all)
        .way("hits, get from C", ours::get)
        .way("hits, view_get", ours::view_get)
        .beside(original_job!(get), map_jobs!(get))
        .beside_calls(original_calls!(get_kept, get_unchecked, get_checked))
        .checked(Work::check_hits)
}

fn hits_in_large_pages<K: Contest>() -> Measure<K> {
    Measure::new(Written::Answers)
        .way("hits, get_all, 2 MB pages", ours::get_all_in_large_pages)
        .beside(original_job!(get_in_large_pages), None)
        .checked(Work::check_hits)
}

fn misses<K: Contest>() -> Measure<K> {
    Measure::new(Written::Answers)
        .way("misses, get_all", ours::get_all)
        .way("misses, get from C", ours::get)
        .way("misses, view_get", ours::view_get)
        .beside(original_job!(get), map_jobs!(get))
        .beside_calls(original_calls!(get_kept, get_unchecked, get_checked))
        .checked(Work::check_misses)
}

fn walk<K: Contest>() -> Measure<K> {
    Measure::new(Written::Answers)
        .way("walk", ours::walk)
        .beside(original_job!(walk), map_jobs!(walk))
        .checked(Work::check_walk)
}

fn open<K: Contest>() -> Measure<K> {
    Measure::new(Written::Nothing)
        .way("open", ours::open)
        .beside(original_job!(open), None)
}

fn insert_growing() -> Measure<u64> {
    Measure::new(Written::Table)
        .way("insert growing", ours::insert_growing)
        .beside(original_job!(insert_growing), map_jobs!(insert_growing))
}

fn from_iterator() -> Measure<u64> {
    Measure::new(Written::Table)
        .way("from_iterator", ours::from_iterator)
        .beside(original_job!(from_iterator), map_jobs!(from_iterator))
}

/// What every kind of table has calls for. What later measures do not need is dropped.
pub fn measure_tables<K: Contest>(run: &mut Run<K>) {
    run.measure(presized());
    run.work.ask_for_keys();
    run.measure(hits());
    if run.work.keys.len() >= pages::LEAST_ITEMS {
        run.work.copy_to_large_pages();
        run.measure(hits_in_large_pages());
        run.work.large = None;
    }
    run.work.ask_for_absent_keys();
    run.measure(misses());
    run.work.drop_queries();
    run.measure(walk());
    run.measure(open());
    run.work.drop_answers_and_maps();
}

/// What tables of numbers alone have calls for.
pub fn measure_builds(run: &mut Run<u64>) {
    run.measure(insert_growing());
    run.measure(from_iterator());
    if run.work.keys.len() <= order::MOST_ITEMS {
        measure_order(run);
    }
}

/// An order of inserts of the table that `from_iterator` makes.
pub fn measure_order(run: &mut Run<u64>) {
    ours::from_iterator(&mut run.work);
    run.work.make_room_for_order();
    run.measure(order::measure());
}
