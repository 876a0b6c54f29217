//! The whole check with a bound of searches, where the bound is kept and where it is not.

use odht::configs::Bytes16ToU32;
use odht::{check_all, check_all_within, Error, HashTable, HashTableOwned};

/// 222 keys whose last four bytes are the same, so that they have one hash, in 256 slots: 13 full groups of its probe
/// order, and 14 slots of the next. So a search from its home reads 14 groups.
fn one_hash() -> HashTableOwned<Bytes16ToU32> {
    let mut table = HashTableOwned::with_capacity(222, 87);
    for number in 0..222_u32 {
        let mut key = [0; 16];
        key[..4].copy_from_slice(&number.to_le_bytes());
        key[12] = 77;
        table.insert(&key, &number);
    }
    table
}

#[test]
fn searches_longer_than_the_bound_are_rejected() {
    let table = one_hash();
    let bytes = table.raw_bytes();
    assert_eq!(bytes.len(), 32 + 256 * 21 + 16);
    assert_eq!(check_all::<Bytes16ToU32>(bytes), Ok(()));
    let view = HashTable::<Bytes16ToU32, _>::from_raw_bytes(bytes).unwrap();
    for groups in [0, 1, 13] {
        let found = check_all_within::<Bytes16ToU32>(bytes, groups);
        assert!(
            matches!(found, Err(Error::SearchTooLong { groups: asked, .. }) if asked == groups)
        );
        assert!(!view.verify_within(groups) && !view.searches_within(groups));
        let copy = HashTableOwned::<Bytes16ToU32>::from_raw_bytes_within(bytes, groups);
        assert_eq!(copy.err(), found.err());
    }
}

#[test]
fn as_many_groups_as_there_are_is_no_bound() {
    let table = one_hash();
    let bytes = table.raw_bytes();
    let view = HashTable::<Bytes16ToU32, _>::from_raw_bytes(bytes).unwrap();
    for groups in [16, 17, usize::MAX] {
        assert_eq!(check_all_within::<Bytes16ToU32>(bytes, groups), Ok(()));
        assert!(view.verify_within(groups) && view.searches_within(groups));
        let copy = HashTableOwned::<Bytes16ToU32>::from_raw_bytes_within(bytes, groups).unwrap();
        assert!(copy.raw_bytes() == bytes);
    }
}

#[test]
fn an_earlier_error_comes_first() {
    let mut bytes = one_hash().raw_bytes().to_vec();
    bytes[8] += 1;
    let error = Err(Error::WrongItemCount { stated: 223, found: 222 });
    assert_eq!(check_all_within::<Bytes16ToU32>(&bytes, 1), error);
    bytes[8] -= 1;
    bytes[30] = 1;
    let error = Err(Error::NonZeroPadding { found: [1, 0] });
    assert_eq!(check_all_within::<Bytes16ToU32>(&bytes, 1), error);
}
