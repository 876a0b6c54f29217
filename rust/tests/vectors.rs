//! The conformance vectors of those calls that this crate has publicly. The others, of group searches, probe orders and
//! the parts of tables, are run inside the crate, by src/tests/vectors.rs.

#[path = "../src/tests/vector_files.rs"]
mod vector_files;

use crate::common::configs::Plain;
use odht::dynamic::{DynTable, FileTable, Layout};
use odht::{
    check_all_within, try_bytes_needed, Error, FxHashFn, HashFn, HashTable, HashTableOwned,
    UnHashFn, Xxh64HashFn,
};
use vector_files::{array, run_all, written, Answer, Case};

// How many of the vectors are of these calls; the other 121 of all 8,216 are run inside the crate.
const PUBLIC_CASES: usize = 8095;

type Owned<const K: usize, const V: usize, H> = HashTableOwned<Plain<K, V, H>>;
type View<const K: usize, const V: usize, H> = HashTable<Plain<K, V, H>, Vec<u8>>;

// `true` and the occupied slots in an order of inserts, or rising; `false`; or an error.
fn order<const K: usize, const V: usize, H: HashFn>(case: &Case<'_>, is_rising: bool) -> Answer {
    let table = match Owned::<K, V, H>::from_raw_bytes(&case.bytes(0)) {
        Ok(table) => table,
        Err(error) => return Answer::word(error),
    };
    let mut order = vec![0; table.len()];
    let mut other = vec![0; table.len()];
    let is_found = table.insert_order(&mut order);
    let scratch = &mut vec![0; table.insert_order_scratch()];
    assert_eq!(table.insert_order_with(&mut other, scratch), is_found);
    let layout = Layout { key_len: K as u8, value_len: V as u8 };
    let twin = DynTable::<H, _>::open(layout, table.raw_bytes()).unwrap();
    let mut twins = [vec![0; table.len()], vec![0; table.len()]];
    assert_eq!(twin.insert_order(&mut twins[0]), is_found);
    assert_eq!(twin.insert_order_with(&mut twins[1], scratch), is_found);
    if !is_found {
        return Answer::word("false");
    }
    assert_eq!((&other, &twins), (&order, &[order.clone(), order.clone()]));
    if is_rising {
        order.sort_unstable();
    }
    let slots = order.iter().map(usize::to_string);
    Answer::words(std::iter::once("true".to_string()).chain(slots))
}

// A call that makes a table, or says how long it is.
fn make<const K: usize, const V: usize, H: HashFn>(case: &Case<'_>) -> Option<Answer> {
    Some(match case.call {
        "hash" => Answer::word(H::hash(&case.bytes(0))),
        "bytes_needed" => {
            let length = try_bytes_needed::<Plain<K, V, H>>(case.number(0), case.number(1));
            Answer::number(length.ok())
        }
        "new" => {
            let place = vec![0xa5; case.number(2)];
            match View::<K, V, H>::init_in_place(place, case.number(0), case.number(1)) {
                Ok(table) => Answer::word("").table(table.raw_bytes()),
                Err(error) => Answer::word(error),
            }
        }
        "with_capacity" => {
            match Owned::<K, V, H>::try_with_capacity(case.number(0), case.number(1)) {
                Ok(mut table) => {
                    let (accepted, result) = table.try_insert_all(&case.pairs(2));
                    let last = Answer::of(result).text;
                    Answer::words([accepted.to_string(), last]).table(table.raw_bytes())
                }
                Err(error) => Answer::word(error),
            }
        }
        "from_iterator" => {
            let table = Owned::<K, V, H>::from_iterator(case.pairs(1), case.number(0));
            Answer::word("").table(table.raw_bytes())
        }
        "owned" => match Owned::<K, V, H>::from_raw_bytes(&case.bytes(0)) {
            Ok(table) => Answer::word("").table(table.raw_bytes()),
            Err(error) => Answer::word(error),
        },
        "insert_order" => order::<K, V, H>(case, false),
        "insert_slots" => order::<K, V, H>(case, true),
        _ => return None,
    })
}

// The whole check, also with a bound that every table keeps and one that none keeps: the latter is rejected where the
// check finds nothing, or finds what comes after the bound.
fn check<const K: usize, const V: usize, H: HashFn>(table: &View<K, V, H>) -> Answer {
    let found = table.check_all();
    assert_eq!(by_numbers(table).check_rest(), found);
    let within = |groups| check_all_within::<Plain<K, V, H>>(table.raw_bytes(), groups);
    assert_eq!(within(usize::MAX), found);
    let without_groups = match found {
        Ok(()) | Err(Error::Unreachable { .. }) => Err(Error::SearchTooLong { home: 0, groups: 0 }),
        Err(error) => Err(error),
    };
    assert_eq!(within(0), without_groups);
    Answer::of(found)
}

// The same table, whose lengths are numbers.
fn by_numbers<const K: usize, const V: usize, H: HashFn>(
    table: &View<K, V, H>,
) -> DynTable<H, &[u8]> {
    DynTable::open_as_stated(table.raw_bytes()).expect("the bytes of a view")
}

// The same table, read by position behind other bytes.
fn where_it_lies<const K: usize, const V: usize, H: HashFn>(
    table: &View<K, V, H>,
) -> FileTable<H, Vec<u8>> {
    let (layout, bytes) = (Layout::of::<Plain<K, V, H>>(), table.raw_bytes());
    let source = [&b"other bytes"[..], bytes].concat();
    FileTable::open_at(layout, source, 11, bytes.len()).expect("the bytes of a view")
}

// A call on a view, which is opened.
fn look<const K: usize, const V: usize, H: HashFn>(
    case: &Case<'_>,
    table: &View<K, V, H>,
) -> Option<Answer> {
    let value_or = |value: Option<[u8; V]>| value.map_or("none".to_string(), |it| written(&it));
    Some(match case.call {
        "open" => {
            assert_eq!(by_numbers(table).layout(), Layout::of::<Plain<K, V, H>>());
            Answer::word("ok")
        }
        "check" => check(table),
        "verify" => Answer::word(table.verify()),
        "len" => {
            assert_eq!(by_numbers(table).len(), table.len());
            Answer::word(table.len())
        }
        "walk" => {
            let pair = |(key, value): ([u8; K], [u8; V])| written(&key) + ":" + &written(&value);
            let pairs: Vec<String> = table.iter().map(pair).collect();
            let stored = by_numbers(table);
            let stored = stored.iter().map(|(key, value)| written(key) + ":" + &written(value));
            assert!(stored.eq(pairs.iter().cloned()));
            if pairs.is_empty() {
                Answer::word("none")
            } else {
                Answer::words(pairs)
            }
        }
        "get" => {
            let key = array(&case.bytes(1));
            let (value, groups) = table.get_counted(&key);
            assert_eq!(table.get(&key), value);
            assert_eq!(table.contains_key(&key), value.is_some());
            let counted = (value.as_ref().map(|it| &it[..]), groups);
            assert_eq!(by_numbers(table).get_counted(&key), counted);
            let (lying, groups) = where_it_lies(table).get_counted(&key).expect("each read");
            assert_eq!((lying.as_deref(), groups), counted);
            Answer::words([value_or(value), groups.to_string()])
        }
        _ => return None,
    })
}

// A call that inserts into a view.
fn insert<const K: usize, const V: usize, H: HashFn>(
    case: &Case<'_>,
    mut table: View<K, V, H>,
) -> Option<Answer> {
    let pairs = case.pairs::<K, V>(1);
    let answer = match case.call {
        "insert" => {
            Answer::words(pairs.iter().map(|(key, value)| match table.try_insert(key, value) {
                Ok(Some(former)) => written(&former),
                Ok(None) => "none".to_string(),
                Err(Error::Full) => "full".to_string(),
                Err(error) => error.to_string(),
            }))
        }
        "insert_all" => {
            let (accepted, result) = table.try_insert_all(&pairs);
            Answer::words([accepted.to_string(), Answer::of(result).text])
        }
        _ => return None,
    };
    Some(answer.table(table.raw_bytes()))
}

const VIEW_CALLS: [&str; 8] =
    ["open", "check", "verify", "len", "walk", "get", "insert", "insert_all"];

// Whether the call is one that this crate has; then its answer was compared.
fn run_in<const K: usize, const V: usize, H: HashFn>(case: &Case<'_>) -> bool {
    let answer = if VIEW_CALLS.contains(&case.call) {
        match View::<K, V, H>::from_raw_bytes(case.bytes(0)) {
            Ok(table) => look(case, &table).or_else(|| insert(case, table)),
            Err(error) => {
                let layout = Layout::of::<Plain<K, V, H>>();
                let opened = DynTable::<H, _>::open(layout, case.bytes(0));
                assert_eq!(opened.err().map(|it| it.to_string()), Some(error.to_string()));
                Some(Answer::word(error))
            }
        }
    } else {
        make::<K, V, H>(case)
    };
    answer.map(|answer| case.compare(answer)).is_some()
}

fn run(case: &Case<'_>) -> bool {
    match case.config {
        "u32_u32 4 4 FxHashFn" => run_in::<4, 4, FxHashFn>(case),
        "u32_u32_direct 4 4 UnHashFn" => run_in::<4, 4, UnHashFn>(case),
        "u64_u32 8 4 FxHashFn" => run_in::<8, 4, FxHashFn>(case),
        "u8_none 1 0 FxHashFn" => run_in::<1, 0, FxHashFn>(case),
        "none_none 0 0 FxHashFn" => run_in::<0, 0, FxHashFn>(case),
        "b16_u32_xxh64 16 4 Xxh64HashFn" => run_in::<16, 4, Xxh64HashFn>(case),
        "" => false,
        other => panic!("{other} is no configuration of this test"),
    }
}

#[test]
fn the_vectors_of_public_calls_hold() {
    if let Some(count) = run_all(&run) {
        assert_eq!(count, PUBLIC_CASES);
    }
}
