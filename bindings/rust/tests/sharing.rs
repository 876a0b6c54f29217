//! Tables at any address, and in threads.

use crate::common::worked_example;
use odht_ffi::{Builder, Iter, Table, TableMut, B32, U64U32};

fn may_be_sent_and_shared<T: Send + Sync>(_: &T) {}

#[test]
fn tables_go_to_other_threads() {
    let mut bytes = worked_example();
    may_be_sent_and_shared(&Builder::<B32>::default());
    may_be_sent_and_shared(&TableMut::<U64U32>::open(&mut bytes).unwrap());
    let table = Table::<U64U32>::open(&bytes).unwrap();
    let pairs: Iter<U64U32> = table.iter();
    may_be_sent_and_shared(&pairs);
    may_be_sent_and_shared(&table);
}

#[test]
fn threads_read_one_table() {
    let pairs = (0..10_000).map(|key| (key, key as u32 ^ 0xabcd));
    let bytes = pairs.collect::<Builder<U64U32>>().build().unwrap();
    let table = Table::<U64U32>::open(&bytes).unwrap();
    std::thread::scope(|threads| {
        for first in 0..4 {
            threads.spawn(move || {
                for key in (first..20_000).step_by(4) {
                    let expected = (key < 10_000).then_some(key as u32 ^ 0xabcd);
                    assert_eq!(table.get(&key), expected);
                }
                assert_eq!(table.iter().count(), 10_000);
            });
        }
    });
}

#[test]
fn a_table_begins_at_any_address() {
    for offset in 0..16 {
        let mut place = vec![0xa5; offset];
        place.extend(worked_example());
        place.push(0xa5);
        let inside = offset..offset + 256;
        let mut table = TableMut::<U64U32>::checked(&mut place[inside.clone()]).unwrap();
        assert_eq!(table.insert(&7, 8), Ok(None));
        let table = Table::<U64U32>::checked(&place[inside]).unwrap();
        assert_eq!(table.get_all(&[7, 5]), [Some(8), Some(6)]);
        assert_eq!(table.iter().count(), 4);
    }
}

#[test]
fn tables_are_shown_in_short() {
    let mut bytes = worked_example();
    let shown = format!("{:?}", Table::<U64U32>::open(&bytes).unwrap());
    assert_eq!(shown, "Table { shape: U64U32, len: 3, slots: 16, .. }");
    let shown = format!("{:?}", TableMut::<U64U32>::open(&mut bytes).unwrap());
    assert_eq!(shown, "TableMut { shape: U64U32, len: 3, slots: 16, .. }");
}
