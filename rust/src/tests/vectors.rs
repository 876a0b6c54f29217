//! The conformance vectors of what is private in this crate. Those of public calls are run by tests/vectors.rs.

use super::probes::group_starts;
use super::vector_files::{run_all, written, Answer, Case};
use crate::generated::base::hash::{FxHashFn, HashFn, UnHashFn, Xxh64HashFn};
use crate::generated::base::load::{max_item_count_for, slots_needed, Factor};
use crate::generated::base::swisstable_group_query::{lanes, no_simd, Group};
use crate::generated::header::config::Config;
use crate::generated::header::error::Error;
use crate::generated::raw::memory_layout::{bytes_needed, entry_at, Header, HEADER_SIZE};
use crate::generated::raw::raw_table::{plain_insert, probe_order, Entries, RawTable, RawTableMut};
use crate::shim::Global;
use std::marker::PhantomData;

// How many of the 8,216 vectors are of these calls.
const PRIVATE_CASES: usize = 121;

// The proved library's configuration of keys and values that are bytes already.
struct Plain<const K: usize, const V: usize, H>(PhantomData<H>);

impl<const K: usize, const V: usize, H: HashFn> Config for Plain<K, V, H> {
    type Key = [u8; K];
    type Value = [u8; V];
    type EncodedKey = [u8; K];
    type EncodedValue = [u8; V];
    type H = H;

    fn encode_key(key: &[u8; K]) -> [u8; K] {
        *key
    }
    fn encode_value(value: &[u8; V]) -> [u8; V] {
        *value
    }
    fn decode_key(key: &[u8; K]) -> [u8; K] {
        *key
    }
    fn decode_value(value: &[u8; V]) -> [u8; V] {
        *value
    }
}

fn numbers(case: &Case<'_>) -> Option<Answer> {
    let factor = |at| Factor::from_percent(case.number(at));
    Some(match case.call {
        "factor" => Answer::word(factor(0).0),
        "to_percent" => Answer::word(factor(0).to_percent()),
        "apply" => Answer::word(factor(0).apply(case.number(1))),
        "apply_inverse" => Answer::word(factor(0).apply_inverse(case.number(1))),
        "slots_needed" => Answer::number(slots_needed(case.number(0), factor(1))),
        "max_item_count" => Answer::word(max_item_count_for(case.number(0), factor(1))),
        "probe_order" => ranges(&probe_order(Global, case.number(0), case.number(1)).unwrap()),
        "group_starts" => Answer::words(starts(case)),
        "words" => group::<no_simd::GroupQuery>(case),
        "lanes" => group::<lanes::GroupQuery>(case),
        _ => return None,
    })
}

fn starts(case: &Case<'_>) -> Vec<usize> {
    let (home, slots) = (case.number(1), case.number(2));
    match case.args[0] {
        "4" => group_starts::<4>(home, slots),
        "8" => group_starts::<8>(home, slots),
        "16" => group_starts::<16>(home, slots),
        other => panic!("{other} is no group size of this test"),
    }
}

// `FIRST-LAST` for each run of numbers that rise by one.
fn ranges(numbers: &[usize]) -> Answer {
    let runs = numbers.chunk_by(|left, right| left + 1 == *right);
    Answer::words(runs.map(|run| format!("{}-{}", run[0], run[run.len() - 1])))
}

// The matches of a tag in a group, and its first free byte.
fn group<Q: Group>(case: &Case<'_>) -> Answer {
    let bytes = case.bytes(0);
    assert_eq!(bytes.len(), Q::SIZE);
    let mut query = Q::of(&bytes, case.number(1));
    let mut words = Vec::new();
    while let Some(index) = query.first_match() {
        words.push(index.to_string());
        query.drop_match();
    }
    words.extend(["free".to_string(), Answer::number(query.first_empty()).text]);
    Answer::words(words)
}

// An insert into the parts of a table, by groups or slot by slot. The header stays.
fn insert_one<const K: usize, const V: usize, H: HashFn>(
    bytes: &mut [u8],
    (key, value): ([u8; K], [u8; V]),
    is_plain: bool,
) -> Result<Option<[u8; V]>, Error> {
    let slots = Header::of(bytes).slot_count();
    let (table, control) = bytes.split_at_mut(entry_at::<Plain<K, V, H>>(slots));
    let entries = &mut table[HEADER_SIZE..];
    if is_plain {
        return plain_insert::<_, _, H>(control, entries, key, value);
    }
    RawTableMut::<_, _, H>::new(control, entries).insert(key, value)
}

fn insert<const K: usize, const V: usize, H: HashFn>(case: &Case<'_>) -> Answer {
    let mut bytes = case.bytes(0);
    let mut plain = bytes.clone();
    let formers = case.pairs::<K, V>(1).into_iter().map(|pair| {
        let former = insert_one::<K, V, H>(&mut bytes, pair, false);
        assert_eq!(insert_one::<K, V, H>(&mut plain, pair, true), former);
        match former {
            Ok(Some(value)) => written(&value),
            Ok(None) => "none".to_string(),
            Err(error) => error.to_string().replace("Table is full", "full"),
        }
    });
    let answer = Answer::words(formers.collect::<Vec<_>>());
    assert_eq!(bytes, plain);
    answer.table(&bytes)
}

// A call on the parts of a table, which are opened without a look at the slots.
fn on_parts<const K: usize, const V: usize, H: HashFn>(case: &Case<'_>) -> Answer {
    let bytes = case.bytes(0);
    let slots = Header::of(&bytes).slot_count();
    let (table, control) = bytes.split_at(entry_at::<Plain<K, V, H>>(slots));
    let entries = Entries::new(&table[HEADER_SIZE..], slots);
    let table = RawTable::<[u8; K], [u8; V], H>::new(control, entries);
    match case.call {
        "check_slots" => Answer::of(table.sanity_check_hashes(case.number(1))),
        _ => Answer::word(format!("{table:?}").lines().nth(case.number(1)).expect("a line")),
    }
}

// Whether the call is one of those that are private; then its answer was compared.
fn run_in<const K: usize, const V: usize, H: HashFn>(case: &Case<'_>) -> bool {
    let answer = match case.call {
        "table_len" => Answer::number(bytes_needed::<Plain<K, V, H>>(case.number(0))),
        "check_slots" | "dump" => on_parts::<K, V, H>(case),
        "raw_insert" => insert::<K, V, H>(case),
        _ => return false,
    };
    case.compare(answer);
    true
}

fn run(case: &Case<'_>) -> bool {
    match case.config {
        "" => match numbers(case) {
            Some(answer) => case.compare(answer),
            None => return false,
        },
        "u32_u32 4 4 FxHashFn" => return run_in::<4, 4, FxHashFn>(case),
        "u32_u32_direct 4 4 UnHashFn" => return run_in::<4, 4, UnHashFn>(case),
        "u64_u32 8 4 FxHashFn" => return run_in::<8, 4, FxHashFn>(case),
        "u8_none 1 0 FxHashFn" => return run_in::<1, 0, FxHashFn>(case),
        "none_none 0 0 FxHashFn" => return run_in::<0, 0, FxHashFn>(case),
        "b16_u32_xxh64 16 4 Xxh64HashFn" => return run_in::<16, 4, Xxh64HashFn>(case),
        other => panic!("{other} is no configuration of this test"),
    }
    true
}

#[test]
fn the_vectors_of_private_calls_hold() {
    if let Some(count) = run_all(&run) {
        assert_eq!(count, PRIVATE_CASES);
    }
}
