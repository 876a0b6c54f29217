//! The example `names`: its hashes spread, so that searches for names as programs have them are short; and its
//! dictionary counts words as a map does.

#[allow(dead_code, clippy::module_inception)]
#[path = "../examples/names.rs"]
mod names;

use names::{hash_of, store, Dictionary, Names};
use odht::HashTable;
use std::collections::{HashMap, HashSet};

// Names as a compiler has them: paths of modules, types with parameters, methods and instances.
fn realistic_names(count: usize) -> Vec<String> {
    let crates = ["core", "alloc", "std", "serde_json", "rustc_middle", "tokio", "my_crate"];
    let modules =
        ["iter::traits", "vec", "ty::context", "runtime::task", "de", "collections::hash"];
    let types = ["Vec<T,A>", "Iterator", "HashMap<K,V,S>", "TyCtxt", "Task<S>", "Deserializer<R>"];
    let methods = ["next", "push", "insert", "get", "poll", "deserialize", "with_capacity", "drop"];
    let lists: [&[&str]; 4] = [&crates, &modules, &types, &methods];
    let name = |number: usize| {
        let (mut rest, mut parts) = (number, Vec::new());
        for list in lists {
            parts.push(list[rest % list.len()].to_string());
            rest /= list.len();
        }
        parts.push(match rest % 3 {
            0 => format!("h{rest:016x}"),
            1 => format!("{{closure#{rest}}}"),
            _ => format!("field_{rest}"),
        });
        parts.join("::")
    };
    (0..count).map(name).collect()
}

// Of 131,072 slots 76 percent are occupied. Where hashes vary, the longest search in such a table reads six or seven
// groups, and the mean is little above one.
#[test]
fn no_search_for_a_name_is_long() {
    let mut all = realistic_names(110_000);
    assert_eq!(all.iter().collect::<HashSet<_>>().len(), all.len());
    let absent = all.split_off(100_000);
    let symbols: Vec<(&str, u64)> = all.iter().map(|name| (name.as_str(), 0)).collect();
    let (bytes, _) = store(&symbols);
    assert_eq!(bytes.len(), 32 + 131_072 * (16 + 20 + 1) + 16);
    let table = HashTable::<Names, _>::try_from_raw_bytes(bytes).unwrap();
    let groups = |name: &String| table.get_counted(&hash_of(name)).1;
    let (most, sum) =
        all.iter().map(groups).fold((0, 0), |(most, sum), it| (it.max(most), sum + it));
    assert!(most <= 8, "{most} groups for a present name");
    assert!(sum < 2 * all.len(), "{sum} groups for all names");
    let most = absent.iter().map(groups).max().unwrap();
    assert!(most <= 8, "{most} groups for an absent name");
}

// Numbers at the end, which are what one name differs from the next by, change the last four bytes of a hash.
#[test]
fn the_last_byte_of_a_name_changes_the_hash() {
    let ends: HashSet<u32> =
        (b' '..b'~').map(|end| (hash_of(&format!("name{}", end as char)) >> 96) as u32).collect();
    assert_eq!(ends.len(), usize::from(b'~' - b' '));
    let homes: HashSet<u32> = ends.iter().map(|hash| hash & 0xff).collect();
    assert!(homes.len() > 60, "{} homes of 256 for 94 names", homes.len());
}

#[test]
fn the_dictionary_counts_words() {
    let (mut dictionary, mut map) = (Dictionary::default(), HashMap::new());
    for word in "to be or not to be, that is the question: whether it is nobler".split(' ') {
        assert!(dictionary.count(word));
        *map.entry(word).or_insert(0) += 1;
        assert_eq!(dictionary.get(word), map.get(word).copied());
    }
    assert_eq!(
        (dictionary.get("to"), dictionary.get("cow"), dictionary.get("")),
        (Some(2), None, None)
    );
    let sixteen = "incomprehensible";
    assert!(dictionary.count(sixteen) && dictionary.count(""));
    assert_eq!((dictionary.get(sixteen), dictionary.get("")), (Some(1), Some(1)));
    for other in ["incomprehensibly-", "a\0", "\0"] {
        assert!(!dictionary.count(other) && dictionary.get(other).is_none());
    }
}
