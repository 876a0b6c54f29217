//! The tests, as one program: cargo compiles and links what they share once. `panics` is a program of its own, because it
//! sets the hook of the process.

mod common;

mod bounds;
mod declarations;
mod errors;
mod forged;
mod format;
mod round_trips;
mod sets;
mod sharing;
mod vectors;

#[test]
fn each_file_is_run() {
    let listed: Vec<_> = include_str!("all.rs")
        .lines()
        .filter_map(|line| line.strip_prefix("mod ")?.strip_suffix(';'))
        .filter(|name| *name != "common")
        .map(|name| format!("{name}.rs"))
        .collect();
    let folder = concat!(env!("CARGO_MANIFEST_DIR"), "/tests");
    let mut found: Vec<_> = std::fs::read_dir(folder)
        .unwrap()
        .map(|entry| entry.unwrap().file_name().into_string().unwrap())
        .filter(|name| !["all.rs", "common", "panics.rs"].contains(&name.as_str()))
        .collect();
    found.sort();
    assert_eq!(listed, found);
}
