//! The cases of the original's tests of a group search, for the search of sixteen bytes in lanes and for that of eight
//! bytes in a word.

use crate::generated::base::swisstable_group_query::{lanes, no_simd};

macro_rules! searches {
    ($($name:ident: $search:ident;)*) => {
        $(
            mod $name {
                use super::$search::{GROUP_SIZE, GroupQuery};

                // The matches of a tag, whether there is a free byte, and the first.
                fn found(group: [u8; GROUP_SIZE], tag: u8) -> (Vec<usize>, bool, Option<usize>) {
                    let mut query = GroupQuery::from(&group, tag);
                    let matches = query.by_ref().collect();
                    (matches, query.any_empty(), query.first_empty())
                }

                // A group of the bytes 0, 1, 2 and so on, with others at some places.
                fn counting(changed: impl Fn(usize) -> Option<u8>) -> [u8; GROUP_SIZE] {
                    std::array::from_fn(|at| changed(at).unwrap_or(at as u8))
                }

                #[test]
                fn neither_the_tag_nor_a_free_byte() {
                    assert_eq!(found(counting(|_| None), 42), (vec![], false, None));
                }

                #[test]
                fn free_bytes_alone() {
                    assert_eq!(found([255; GROUP_SIZE], 31), (vec![], true, Some(0)));
                }

                #[test]
                fn free_bytes_behind_others() {
                    for last in 0..GROUP_SIZE - 1 {
                        let group = std::array::from_fn(|at| if at <= last { 42 } else { 255 });
                        assert_eq!(found(group, 77), (vec![], true, Some(last + 1)));
                    }
                }

                #[test]
                fn the_tag_at_each_third_byte() {
                    let expected = (0..GROUP_SIZE).step_by(3).collect();
                    let group = counting(|at| (at % 3 == 0).then_some(103));
                    assert_eq!(found(group, 103), (expected, false, None));
                }

                #[test]
                fn the_tag_and_free_bytes() {
                    let is_free = |at| [3, 4, GROUP_SIZE - 1].contains(&at);
                    let group = counting(|at| match at {
                        _ if is_free(at) => Some(255),
                        _ => (at % 3 == 2).then_some(99),
                    });
                    let expected = (0..GROUP_SIZE).filter(|at| at % 3 == 2 && !is_free(*at));
                    assert_eq!(found(group, 99), (expected.collect(), true, Some(3)));
                }
            }
        )*
    };
}

searches! {
    in_lanes: lanes;
    in_a_word: no_simd;
}

// Each pair of neighbours, at each place, for both searches: each byte that is the tag is reported, and the first free
// byte. Beside these the search in a word may report the tag's neighbour right behind a reported byte, and no other.
#[test]
fn all_neighbours_are_found_exactly() {
    for (tag, other) in (0..128).flat_map(|tag| (0..=255).map(move |other| (tag, other))) {
        let mut group = [200_u8; 16];
        let place = usize::from(other) % 15;
        (group[place], group[place + 1]) = (tag, other);
        let equal: Vec<usize> = (0..16).filter(|at| group[*at] == tag).collect();
        let free = group.iter().position(|byte| *byte >= 128);
        let lanes = lanes::GroupQuery::from(&group, tag);
        assert_eq!(lanes.first_empty(), free);
        assert!(lanes.eq(equal.iter().copied()));
        for (begin, half) in [0, 8].into_iter().zip(group.chunks(8)) {
            let words = no_simd::GroupQuery::from(half.try_into().unwrap(), tag);
            let free = half.iter().position(|byte| *byte >= 128);
            assert_eq!(words.first_empty(), free);
            let found: Vec<usize> = words.map(|at| begin + at).collect();
            assert!(equal.iter().all(|at| !(begin..begin + 8).contains(at) || found.contains(at)));
            let is_false = |at: &usize| group[*at] == tag ^ 1 && found.contains(&(at - 1));
            assert!(found.iter().all(|at| equal.contains(at) || is_false(at)));
        }
    }
}
