//! The whole check with a bound of searches, by each call that has one.

use crate::common::worked_example;
use odht_ffi::{empty_table, Error, ErrorAt, Table, TableMut, B16U32, DEFAULT_GROUPS, U64U32};

/// 222 keys whose last four bytes are the same, so that they have one hash, in 256 slots: 13 full groups of its probe
/// order, and 14 slots of the next. So a search from its home reads 14 groups.
fn one_hash() -> Vec<u8> {
    let mut bytes = empty_table::<B16U32>(222, 87).unwrap();
    let mut table = TableMut::<B16U32>::open(&mut bytes).unwrap();
    for number in 0..222_u32 {
        let mut key = [0; 16];
        key[..4].copy_from_slice(&number.to_le_bytes());
        key[12] = 77;
        assert_eq!(table.insert(&key, number), Ok(None));
    }
    bytes
}

/// What each call says of the bytes.
fn within(bytes: &[u8], groups: usize) -> Result<(), Error> {
    let checked = Table::<B16U32>::checked_within(bytes, groups).map(|table| {
        assert_eq!(table.bytes(), bytes);
    });
    assert_eq!(Table::<B16U32>::open(bytes).unwrap().check_within(groups), checked);
    assert_eq!(Table::<B16U32>::check_within_at(bytes, groups).map_err(|it| it.error), checked);
    let mut copy = bytes.to_vec();
    let inserted = TableMut::<B16U32>::checked_within(&mut copy, groups).map(|mut table| {
        assert_eq!(table.insert(&[1; 16], 1), Err(Error::Full));
    });
    assert_eq!(inserted, checked);
    assert_eq!(copy, bytes);
    checked
}

#[test]
fn a_bound_that_is_kept_and_one_that_is_not() {
    let bytes = one_hash();
    assert_eq!(bytes.len(), 32 + 256 * 21 + 16);
    assert_eq!(Table::<B16U32>::checked(&bytes).unwrap().len(), 222);
    for groups in [0, 1, 13] {
        assert_eq!(within(&bytes, groups), Err(Error::SearchTooLong));
    }
    for groups in [16, DEFAULT_GROUPS, usize::MAX] {
        assert_eq!(within(&bytes, groups), Ok(()));
    }
}

#[test]
fn other_errors_come_before_and_behind() {
    let mut bytes = one_hash();
    bytes[8] += 1;
    assert_eq!(within(&bytes, 1), Err(Error::WrongItemCount));
    // The first key is stored twice: its second copy is no longer reached. Slot 77 is its home, slot 78 the next.
    let mut bytes = one_hash();
    let first = 32 + 77 * 20;
    bytes.copy_within(first..first + 20, first + 20);
    assert_eq!(within(&bytes, 13), Err(Error::SearchTooLong));
    assert_eq!(within(&bytes, 16), Err(Error::Unreachable));
}

/// A search from each home ends in the first group: that is all slots.
#[test]
fn sixteen_slots_are_one_group() {
    let mut bytes = worked_example();
    let table = TableMut::<U64U32>::checked_within(&mut bytes, 1).unwrap().into_table();
    assert_eq!((table.get(&3), table.check_within(1)), (Some(4), Ok(())));
    assert_eq!(table.check_within(0), Err(Error::SearchTooLong));
    assert_eq!(Table::<U64U32>::checked_within(&bytes[1..], 1).map(|_| ()), Err(Error::WrongTag));
}

/// The keys of the worked example are in slots 5, 9 and 15; what is changed was worked out by hand.
#[test]
fn where_the_first_error_is() {
    let at = |error, slot| Err(ErrorAt { error, slot });
    let mut bytes = worked_example();
    assert_eq!(Table::<U64U32>::open_at(&bytes), Ok(()));
    assert_eq!(Table::<U64U32>::check_at(&bytes), Ok(()));
    assert_eq!(Table::<U64U32>::check_within_at(&bytes, 1), Ok(()));
    assert_eq!(Table::<U64U32>::check_within_at(&bytes, 0), at(Error::SearchTooLong, Some(0)));
    bytes[8] = 4;
    assert_eq!(Table::<U64U32>::check_at(&bytes), at(Error::WrongItemCount, None));
    bytes[227] = 200; // the control byte of slot 3, which is free
    assert_eq!(Table::<U64U32>::open_at(&bytes), Ok(()));
    let error = Table::<U64U32>::check_at(&bytes).unwrap_err();
    assert_eq!(error, ErrorAt { error: Error::BadFreeControl, slot: Some(3) });
    assert_eq!(error.to_string(), "bad free control at slot 3");
    bytes[116] = 1; // in the entry of slot 7, which is free
    assert_eq!(Table::<U64U32>::open_at(&bytes), at(Error::NonZeroEmpty, Some(7)));
    assert_eq!(Table::<U64U32>::open_at(&bytes[..255]), at(Error::WrongLength, None));
}
