//! Tables at the front of longer bytes, and at any offset in them.

use crate::common::frame::{format, fronts_are_read};
use crate::common::random::Random;
use crate::common::reading::Reading;
use crate::common::worked::{changed, header, three_pairs};
use odht::configs::U64ToU32;
use odht::{table_len, Error, FxHashFn, HashTable, HashTableOwned};

type View<'b> = HashTable<U64ToU32, &'b [u8]>;

// The length of a table at the front of the bytes, where it is opened: of keys of 8 bytes and values of 4.
fn opened(bytes: &[u8]) -> Option<usize> {
    fronts_are_read::<8, 4, FxHashFn>(&Reading::new(format::<8, 4, FxHashFn>(), bytes))
}

#[test]
fn a_table_at_each_offset_with_any_bytes_behind() {
    let table = three_pairs();
    let mut random = Random(1);
    for offset in 0..40 {
        for behind in [0, 1, 2, 15, 255, 256, 300] {
            let mut file = vec![0; offset + table.len() + behind];
            file.iter_mut().for_each(|byte| *byte = random.byte());
            file[offset..][..table.len()].copy_from_slice(&table);
            assert_eq!(opened(&file[offset..]), Some(256));
            let (view, rest) = View::open_prefix(&file[offset..]).unwrap();
            assert_eq!((view.get(&1), view.get(&3), view.get(&5)), (Some(2), Some(4), Some(6)));
            assert_eq!((view.get(&2), view.len(), view.verify()), (None, 3, true));
            assert_eq!(rest, &file[offset + 256..]);
        }
    }
}

#[test]
fn tables_one_behind_the_other() {
    let tables: Vec<_> = [0, 3, 100, 1000]
        .map(|count| HashTableOwned::<U64ToU32>::from_iterator((0..count).map(|i| (i, 7)), 87))
        .into();
    let file = tables.iter().flat_map(|table| table.raw_bytes().to_vec()).collect::<Vec<_>>();
    let mut rest = &file[..];
    for table in &tables {
        assert_eq!(table_len::<U64ToU32>(rest), Ok(table.raw_bytes().len()));
        let (view, behind) = View::open_prefix(rest).unwrap();
        assert_eq!(view.raw_bytes(), table.raw_bytes());
        rest = behind;
    }
    assert!(rest.is_empty());
    assert_eq!(table_len::<U64ToU32>(rest), Err(Error::TooShort { found: 0 }));
}

#[test]
fn each_cut() {
    let table = three_pairs();
    for length in 0..256 {
        assert_eq!(opened(&table[..length]), None);
        let expected = match length {
            0..=31 => Error::TooShort { found: length },
            found => Error::WrongLength { slot_count: 16, found, expected: 256 },
        };
        assert_eq!(table_len::<U64ToU32>(&table[..length]), Err(expected));
    }
}

#[test]
fn a_header_states_more_bytes_than_there_are() {
    for power in 4..64 {
        let expected = 48 + 13 * (1_u128 << power);
        for length in [32, 256, 4096] {
            let mut bytes = header((8, 4), 0, 1 << power, [0, 240]);
            bytes.resize(length, 0);
            let stated = match expected <= length as u128 {
                true => Ok(expected as usize),
                false => {
                    Err(Error::WrongLength { slot_count: 1 << power, found: length, expected })
                }
            };
            assert_eq!(table_len::<U64ToU32>(&bytes), stated);
            opened(&bytes);
        }
    }
}

#[test]
fn errors_of_slots_come_last_and_those_behind_the_table_never() {
    // The fifth slot is free; a byte of its entry is changed, and its control byte.
    let table = [three_pairs(), three_pairs()].concat();
    let error = |changes: &[(usize, u8)]| View::open_prefix(&changed(&table, changes)).err();
    assert_eq!(error(&[]), None);
    assert_eq!(error(&[(32 + 4 * 12, 1)]), Some(Error::NonZeroEmpty { slot: 4 }));
    assert!(matches!(error(&[(224 + 4, 1)]), Some(Error::ControlMismatch { slot: 4, .. })));
    assert!(matches!(error(&[(0, 1), (224 + 4, 1)]), Some(Error::WrongTag { .. })));
    for at in 256..table.len() {
        assert_eq!(error(&[(at, 0x55)]), None);
    }
}
