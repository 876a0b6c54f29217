//! Each error: how it is reached, its number and its text.

use crate::common::{changed, worked_example};
use odht_ffi::{bytes_needed, sys, Builder, Error, Table, TableMut, B16, B16U32, U64U32, U64U64};

/// The numbers and texts of include/odht.h.
// begin ERRORS: generated from lists/errors.txt by make generate
const ERRORS: [(u32, Error, &str); 25] = [
    (1, Error::TooShort, "too short"),
    (2, Error::WrongTag, "wrong tag"),
    (3, Error::WrongVersion, "wrong version"),
    (4, Error::WrongSize, "wrong size"),
    (5, Error::SlotCountNotPowerOfTwo, "slot count not a power of two"),
    (6, Error::SlotCountTooSmall, "slot count too small"),
    (7, Error::WrongLength, "wrong length"),
    (8, Error::NonZeroEmpty, "non-zero empty slot"),
    (9, Error::ControlMismatch, "control mismatch"),
    (10, Error::LoadFactorTooSmall, "load factor too small"),
    (11, Error::NonZeroPadding, "non-zero padding"),
    (12, Error::BadFreeControl, "bad free control"),
    (13, Error::MirrorMismatch, "mirror mismatch"),
    (14, Error::WrongItemCount, "wrong item count"),
    (15, Error::TooManyItems, "too many items"),
    (16, Error::Unreachable, "unreachable"),
    (17, Error::InitLength, "wrong length to initialize"),
    (18, Error::Full, "full"),
    (19, Error::Memory, "no memory"),
    (20, Error::Capacity, "capacity"),
    (21, Error::SearchTooLong, "search too long"),
    (34, Error::BadPercent, "bad percent"),
    (35, Error::BadLengths, "bad lengths"),
    (36, Error::TooSmall, "too small"),
    (38, Error::BadLayout, "bad layout"),
];
// end ERRORS

#[test]
fn numbers_and_texts() {
    for (number, error, text) in ERRORS {
        assert_eq!(Error::from_number(number), error);
        assert_eq!((error.number(), error.name()), (number, text));
        assert_eq!(error.to_string(), text);
    }
}

#[test]
fn unknown_numbers() {
    let known = |number| ERRORS.iter().any(|error| error.0 == number);
    for number in (0..100).chain([u32::MAX]).filter(|number| !known(*number)) {
        let error = Error::from_number(number);
        assert_eq!((error, error.number()), (Error::Unknown(number), number));
        assert_eq!(error.name(), "unknown status");
        assert_eq!(error.to_string(), format!("unknown status {number}"));
    }
}

#[test]
fn it_is_an_error() {
    fn fails() -> Result<(), Box<dyn std::error::Error + Send + Sync>> {
        Table::<U64U32>::open(&[])?;
        Ok(())
    }
    assert_eq!(fails().unwrap_err().downcast_ref(), Some(&Error::TooShort));
}

fn refused(bytes: &[u8], error: Error) {
    assert_eq!(Table::<U64U32>::open(bytes).map(|_| ()), Err(error));
    assert_eq!(Table::<U64U32>::checked(bytes).map(|_| ()), Err(error));
    let mut copy = bytes.to_vec();
    assert_eq!(TableMut::<U64U32>::open(&mut copy).map(|_| ()), Err(error));
    assert_eq!(TableMut::<U64U32>::checked(&mut copy).map(|_| ()), Err(error));
    assert_eq!(odht_ffi::insert_growing::<U64U32>(&mut copy, &1, 2), Err(error));
    assert_eq!(copy, bytes);
}

/// Changes that opening finds.
#[test]
fn opening_refuses() {
    let whole = worked_example();
    refused(&[], Error::TooShort);
    refused(&whole[..31], Error::TooShort);
    refused(&changed(&[(0, 80)]), Error::WrongTag);
    refused(&changed(&[(27, 3)]), Error::WrongVersion);
    for (index, byte) in [(4, 2), (5, 16), (6, 8), (7, 31)] {
        refused(&changed(&[(index, byte)]), Error::WrongSize);
    }
    refused(&changed(&[(16, 24)]), Error::SlotCountNotPowerOfTwo);
    refused(&changed(&[(16, 8)]), Error::SlotCountTooSmall);
    refused(&changed(&[(16, 32)]), Error::WrongLength);
    // 2^63 slots: no multiplication wraps.
    refused(&changed(&[(16, 0), (23, 128)]), Error::WrongLength);
    refused(&whole[..255], Error::WrongLength);
    refused(&[&whole[..], &[0]].concat(), Error::WrongLength);
    refused(&changed(&[(32, 7)]), Error::NonZeroEmpty);
    refused(&changed(&[(92, 3)]), Error::ControlMismatch);
}

#[test]
fn other_shapes_refuse() {
    let bytes = worked_example();
    assert_eq!(Table::<B16U32>::open(&bytes).map(|_| ()), Err(Error::WrongSize));
    assert_eq!(Table::<U64U64>::open(&bytes).map(|_| ()), Err(Error::WrongSize));
    assert_eq!(Table::<B16>::open(&bytes).map(|_| ()), Err(Error::WrongSize));
}

/// Changes that opening does not find, and the whole check does.
fn refused_by_check(changes: &[(usize, u8)], error: Error) {
    let bytes = changed(changes);
    let table = Table::<U64U32>::open(&bytes).unwrap();
    assert_eq!(table.check(), Err(error));
    assert_eq!(table.insert_order(), Err(error));
    assert_eq!(table.insert_order_into(&mut [0; 3]), Err(error));
    assert_eq!(Table::<U64U32>::checked(&bytes).map(|_| ()), Err(error));
    let mut copy = bytes.clone();
    assert_eq!(TableMut::<U64U32>::checked(&mut copy).map(|_| ()), Err(error));
}

#[test]
fn the_whole_check_refuses() {
    refused_by_check(&[(28, 0x8e), (29, 2), (30, 1)], Error::LoadFactorTooSmall);
    refused_by_check(&[(30, 1)], Error::NonZeroPadding);
    refused_by_check(&[(224, 128)], Error::BadFreeControl);
    refused_by_check(&[(245, 255)], Error::MirrorMismatch);
    refused_by_check(&[(8, 4)], Error::WrongItemCount);
    // 951 * 16 / 65536 is 0.
    refused_by_check(&[(28, 0xb7), (29, 3)], Error::TooManyItems);
    // Key 1 in slot 6, after its home 5, which is free.
    let moved = [(92, 0), (100, 0), (104, 1), (112, 2), (229, 255), (230, 0x13), (245, 255), (246, 0x13)];
    refused_by_check(&moved, Error::Unreachable);
}

#[test]
fn slots_behind_the_tenth_are_checked_alone() {
    refused_by_check(&[(32 + 10 * 12, 7)], Error::NonZeroEmpty);
    refused_by_check(&[(212, 1)], Error::ControlMismatch);
}

#[test]
fn making_tables_refuses() {
    let mut bytes = worked_example();
    let mut init =
        |length: usize, items, percent| TableMut::<U64U32>::init(&mut bytes[..length], items, percent).map(|_| ());
    assert_eq!(init(255, 3, 95), Err(Error::InitLength));
    assert_eq!(init(256, 16, 95), Err(Error::InitLength));
    assert_eq!(init(256, 3, 0), Err(Error::BadPercent));
    assert_eq!(init(256, 3, 101), Err(Error::BadPercent));
    assert_eq!(init(256, usize::MAX, 87), Err(Error::Capacity));
    assert_eq!(bytes, worked_example());
    assert_eq!(bytes_needed::<U64U32>(3, 0), Err(Error::BadPercent));
    assert_eq!(bytes_needed::<U64U32>(usize::MAX, 87), Err(Error::Capacity));
    assert_eq!(Builder::<U64U32>::new(0).build(), Err(Error::BadPercent));
    // 2^58 slots and more need more memory than there is.
    assert_eq!(odht_ffi::empty_table::<U64U32>(1 << 58, 87), Err(Error::Memory));
}

#[test]
fn a_full_table_takes_present_keys_alone() {
    let mut bytes = worked_example();
    let mut table = TableMut::<U64U32>::open(&mut bytes).unwrap();
    let keys: Vec<u64> = (1..=16).collect();
    assert_eq!(table.insert_all(&keys, &[9; 16]), (15, Err(Error::Full)));
    assert_eq!(table.insert(&16, 1), Err(Error::Full));
    assert_eq!(table.insert(&15, 1), Ok(Some(9)));
    assert_eq!(table.as_table().get(&15), Some(1));
    assert_eq!(table.as_table().len(), 15);
}

#[test]
fn lengths_have_to_agree() {
    let mut bytes = worked_example();
    let mut table = TableMut::<U64U32>::open(&mut bytes).unwrap();
    assert_eq!(table.insert_all(&[7, 8], &[1]), (0, Err(Error::BadLengths)));
    let table = table.into_table();
    let (mut values, mut found) = ([5; 2], [6; 2]);
    assert_eq!(table.get_all_into(&[1], &mut values, &mut found), Err(Error::BadLengths));
    assert_eq!(table.get_all_into(&[1, 7], &mut values, &mut found[..1]), Err(Error::BadLengths));
    assert_eq!((values, found), ([5; 2], [6; 2]));
    assert_eq!(table.get_all_into(&[1, 7], &mut values, &mut found), Ok(()));
    assert_eq!((values, found), ([2, 5], [1, 0]));
    assert_eq!(table.walk(&mut 0, &mut [0; 2], &mut [0; 3]), Err(Error::BadLengths));
    assert_eq!(table.insert_order_into(&mut [0; 2]), Err(Error::BadLengths));
    assert_eq!(bytes, worked_example());
}

#[test]
fn slices_can_be_too_short() {
    let bytes = worked_example();
    let table = Table::<U64U32>::open(&bytes).unwrap();
    // 6 items at this load factor need 16 slots.
    assert_eq!(table.grown_len(), Ok(256));
    let mut out = [9; 255];
    assert_eq!(table.grow_into(&mut out), Err(Error::TooSmall));
    assert_eq!(out, [9; 255]);
    let builder: Builder<U64U32> = [(1, 2)].into_iter().collect();
    assert_eq!(builder.build_growing_into(&mut out), Err(Error::TooSmall));
    assert_eq!(out, [9; 255]);
}

/// Three bytes are too few for the hash function of keys that are hashes.
#[test]
fn keys_too_short_for_the_hash_function() {
    let bytes = worked_example();
    let open = |key_len, hash| {
        let layout = sys::Layout { key_len, value_len: 4, hash };
        // SAFETY: the layout and the bytes are there until the call returns.
        unsafe { sys::any::open(&layout, bytes.as_ptr(), bytes.len()) }
    };
    assert_eq!(open(8, 0), 0);
    assert_eq!(Error::from_number(open(3, 1)), Error::BadLayout);
    // The table's keys are hashed by the function of number 0. No function has the number 3.
    assert_eq!(Error::from_number(open(8, 2)), Error::ControlMismatch);
    assert_eq!(Error::from_number(open(8, 3)), Error::BadLayout);
}

/// The lines of include/odht.h that begin with a word, each without it.
fn lines_with<'a>(header: &'a str, word: &'a str) -> impl Iterator<Item = &'a str> {
    header.lines().filter_map(move |line| line.trim().strip_prefix(word))
}

#[test]
fn the_header_has_the_same_statuses() {
    let path = concat!(env!("CARGO_MANIFEST_DIR"), "/../../include/odht.h");
    let Ok(header) = std::fs::read_to_string(path) else {
        println!("There is no {path}: this package is not in its repository.");
        return;
    };
    let names = lines_with(&header, "ODHT_").filter_map(|line| line.split_once(" = "));
    let number = |text: &str| text.split([',', ' ', '\n']).next().unwrap().parse::<u32>().ok();
    let numbers: Vec<(&str, u32)> = names.filter_map(|(name, text)| Some((name, number(text)?))).collect();
    // The statuses that are no error.
    let others = ["OK", "ABSENT", "REPLACED", "UNMADE"];
    assert_eq!(numbers.len(), ERRORS.len() + others.len());
    for (name, number) in numbers {
        let case = format!("case ODHT_{name}: return \"");
        let text = lines_with(&header, &case).next().unwrap().strip_suffix("\";").unwrap();
        let error = Error::from_number(number);
        let expected = if others.contains(&name) { "unknown status" } else { text };
        assert_eq!(error.name(), expected, "{name}");
    }
}
