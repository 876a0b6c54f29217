//! Each public call whose answer is its point says so, so that the compiler warns where one is dropped. The sources are
//! read for this: no test can see a warning.

use std::fs;
use std::path::{Path, PathBuf};

// Calls that are made for what they do, or whose result has a type that says it. The last three are the crate's own.
const OTHERS: [&str; 10] = [
    "insert",
    "insert_encoded",
    "try_insert_all",
    "try_extend",
    "get_or_insert",
    "get_or_insert_with",
    "get_or_insert_encoded_with",
    "percent_of",
    "percent",
    "refused",
];
const WALKS: [&str; 6] = ["Iter<", "Keys<", "Values<", "Slots<", "IntoKeys<", "IntoValues<"];

fn sources(folder: &Path) -> Vec<PathBuf> {
    let names = ["owned.rs", "view.rs", "sizes.rs"].map(|name| folder.join(name));
    let below =
        ["owned", "view"].into_iter().flat_map(|name| fs::read_dir(folder.join(name)).unwrap());
    names.into_iter().chain(below.map(|entry| entry.unwrap().path())).collect()
}

// The public functions of a source: the name of each, what it returns, and its attributes.
fn functions(source: &str) -> Vec<(String, String, String)> {
    let mut found = Vec::new();
    for (at, _) in source.match_indices("pub ") {
        let code = &source[at..];
        let Some(code) = code.strip_prefix("pub unsafe fn ").or(code.strip_prefix("pub fn "))
        else {
            continue;
        };
        let head = &code[..code.find(" {").unwrap()];
        let name = head.split(['(', '<']).next().unwrap().to_string();
        let result = head.rsplit_once("->").map_or("", |(_, result)| result.trim()).to_string();
        let before = source[..at].trim_end().lines().rev();
        let attributes: Vec<&str> =
            before.take_while(|line| line.trim().starts_with("#[")).collect();
        found.push((name, result, attributes.concat()));
    }
    found
}

#[test]
fn answers_are_to_be_used() {
    let mut count = 0;
    for source in sources(&Path::new(env!("CARGO_MANIFEST_DIR")).join("src")) {
        for (name, result, attributes) in functions(&fs::read_to_string(source).unwrap()) {
            let is_told = result.is_empty()
                || result.starts_with("Result<")
                || WALKS.iter().any(|walk| result.starts_with(walk))
                || OTHERS.contains(&&name[..]);
            let is_marked = attributes.contains("#[must_use]");
            assert_eq!(is_marked, !is_told, "{name}, which returns {result:?}");
            count += usize::from(is_marked);
        }
    }
    // 19 of the table that grows, 17 of views, and one more
    assert_eq!(count, 37);
}
