//! The cases of the original's tests of load factors. Where it compares numbers roughly, the exact ones are here, as
//! docs/FORMAT.md has them.

use crate::generated::base::load::{max_item_count_for, slots_needed, Factor};

#[test]
fn factors_of_percentages() {
    assert_eq!([100, 0, 50].map(|percent| Factor::from_percent(percent).0), [65535, 0, 32767]);
}

#[test]
fn items_of_slots() {
    let apply = |percent, slots| Factor::from_percent(percent).apply(slots);
    assert_eq!(apply(100, 12345), 12344);
    assert_eq!(apply(0, 12345), 0);
    assert_eq!(apply(50, 66), 32);
    assert_eq!(apply(100, usize::MAX), 18446462598732840959);
}

#[test]
fn slots_of_items() {
    let inverse = |percent, items| Factor::from_percent(percent).apply_inverse(items);
    assert_eq!(inverse(100, 12345), 12345);
    assert_eq!(inverse(10, 100), 1001);
    assert_eq!(inverse(50, 33), 67);
    assert_eq!(inverse(100, usize::MAX), 18446744073709551615);
}

#[test]
fn slots_and_items_of_new_tables() {
    let rows = [(0, 100, 16), (6, 60, 16), (5, 50, 16), (5, 49, 16), (1000, 100, 1024)];
    for (items, percent, slots) in rows {
        assert_eq!(slots_needed(items, Factor::from_percent(percent)), Some(slots));
    }
    for (slots, percent, items) in [(10, 100, 9), (10, 50, 4), (11, 50, 5), (12, 50, 5)] {
        assert_eq!(max_item_count_for(slots, Factor::from_percent(percent)), items);
    }
}
