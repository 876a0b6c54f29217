//! Measures this library beside others that keep a table from numbers to numbers: constant databases, trees in a file,
//! and the standard library's map. It prints a table, and draws two pictures of it. README.md, "Peers", says how.
#![allow(dead_code)]

#[path = "peers/contenders.rs"]
mod contenders;
mod keys;
mod library;
mod maps;
mod measure;
mod ours;
mod pages;
#[path = "peers/pairs.rs"]
mod pairs;
#[path = "peers/picture.rs"]
mod picture;
#[path = "../bindings/rust/src/sys.rs"]
mod sys;
mod table;
mod work;

use std::fs;
use std::path::Path;

use contenders::{contenders, Counted, Told};
use pairs::Pairs;
use table::{print_heading, Column, Table};

#[global_allocator]
static COUNTED: Counted = Counted;

/// Powers of ten. Those from `LARGE` on are in the table, and all in the picture by size.
const SIZES: [u32; 5] = [3, 4, 5, 6, 7];
const QUICK: [u32; 3] = [3, 4, 5];
const LARGE: u32 = 6;

fn columns() -> Vec<Column> {
    vec![
        Column::Word("items", 5),
        Column::Word("peer", 20),
        Column::Number("build, ns", 10),
        Column::Number("bytes an item", 13),
        Column::Number("open, us", 9),
        Column::Number("present, ns", 11),
        Column::Number("absent, ns", 10),
    ]
}

fn row(power: u32, told: &Told) -> Vec<String> {
    let opened = told
        .open
        .map_or("-".to_string(), |time| format!("{:.1}", time / 1000.0));
    vec![
        format!("10^{power}"),
        told.name.to_string(),
        format!("{:.1}", told.build),
        format!("{:.1}", told.bytes),
        opened,
        format!("{:.1}", told.present),
        format!("{:.1}", told.absent),
    ]
}

fn left_out() -> Vec<&'static str> {
    let mut left = Vec::new();
    if !cfg!(cdb) {
        left.push("TinyCDB (libcdb-dev)");
    }
    if !cfg!(lmdb) {
        left.push("LMDB (liblmdb-dev)");
    }
    if !cfg!(sqlite) {
        left.push("SQLite (libsqlite3-dev)");
    }
    left
}

/// Draws into the folder, and refers to both pictures where Markdown is printed.
fn draw(all: &[(u32, Vec<Told>)], folder: &Path, markdown: bool) {
    let (power, largest) = all.last().expect("there are sizes");
    let bars = picture::bars(*power, largest);
    fs::write(folder.join("peers.svg"), bars).expect("the picture can be written");
    let lines = picture::by_size(all);
    fs::write(folder.join("peers_by_size.svg"), lines).expect("the picture can be written");
    if markdown {
        println!("\n![All peers at 10^{power} items](peers.svg)");
        println!("\n![A lookup of a present key, by the number of items](peers_by_size.svg)");
    } else {
        println!(
            "\ndrawn: {0}/peers.svg, {0}/peers_by_size.svg",
            folder.display()
        );
    }
}

/// `peers FOLDER PICTURES [quick] [markdown]`: the files of the peers are in the first folder while it runs.
fn main() {
    let words: Vec<String> = std::env::args().skip(1).collect();
    let (folder, pictures) = (Path::new(&words[0]), Path::new(&words[1]));
    let is_asked = |word: &str| words[2..].iter().any(|given| given == word);
    let markdown = is_asked("markdown");
    let sizes = if is_asked("quick") {
        &QUICK[..]
    } else {
        &SIZES[..]
    };
    print_heading("Peers", markdown);
    println!("\nnanoseconds for each item or lookup, microseconds to open; the best of the rounds");
    for name in left_out() {
        println!("left out, since it is not installed: {name}");
    }
    let table = Table::begin(columns(), markdown);
    let mut all = Vec::new();
    for power in sizes {
        let pairs = Pairs::new(10_usize.pow(*power));
        let mut told = Vec::new();
        for contender in contenders() {
            let times = contender.measure(&pairs, folder);
            if *power >= LARGE || is_asked("quick") {
                table.print(&row(*power, &times));
            }
            told.push(times);
        }
        all.push((*power, told));
    }
    draw(&all, pictures, markdown);
}
