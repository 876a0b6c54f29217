//! Measures this library beside the original Rust crate, where it is built with `--cfg original`,
//! and beside `HashMap`. It prints a table for each kind of key, and three of the whole check; or
//! the line of an order of inserts alone. README.md says how it measures.

mod bounded;
#[cfg(original)]
mod called;
mod check;
#[path = "../rust/src/tests/forged.rs"]
mod forged;
mod keys;
#[allow(dead_code)]
mod library;
mod lines;
mod maps;
mod measure;
mod measures;
#[cfg(moved)]
mod moved;
mod order;
#[cfg(original)]
mod original;
mod ours;
mod pages;
mod run;
mod runs;
#[allow(dead_code)]
#[path = "../bindings/rust/src/sys.rs"]
mod sys;
mod table;
mod work;

use runs::Size;
use table::print_heading;

/// Powers of ten with their rounds in each run. Of the largest tables the first placement is
/// measured alone, since memory and not code makes their times.
const SIZES: [Size; 4] = [size(3, 15, 2), size(5, 9, 2), size(6, 3, 2), size(7, 1, 1)];
const QUICK: [Size; 2] = [size(3, 5, 2), size(5, 5, 2)];

const fn size(power_of_ten: u32, rounds: usize, placements: usize) -> Size {
    Size {
        power_of_ten,
        rounds,
        placements,
    }
}

fn print_words() {
    println!(
        "nanoseconds for each item; odht and original: the best of all rounds, and the median;"
    );
    println!("HashMap: the best; ratio: odht to original, the median of five runs, and its range;");
    println!("view kept, unchecked, checked: the original called as a function of C would be, with a table");
    println!(
        "that was opened once, and with bytes that each call opens without a check, or with one;"
    );
    println!("below 1 odht is faster; moved: the same program with all its code elsewhere");
}

fn print_first_tables(quick: bool, markdown: bool) {
    let numbers = if quick { &QUICK[..] } else { &SIZES[..] };
    let bytes = if quick { &QUICK[..] } else { &SIZES[..3] };
    print_words();
    print_heading("Keys of 64 bits, FxHashFn", markdown);
    lines::print::<u64>("u64", numbers, markdown);
    print_heading("Keys of 16 bytes, UnHashFn", markdown);
    lines::print::<[u8; 16]>("b16", bytes, markdown);
}

fn print_order(quick: bool, markdown: bool) {
    let size = if quick { &QUICK[1] } else { &SIZES[2] };
    print_words();
    lines::print::<u64>("order", std::slice::from_ref(size), markdown);
}

fn main() {
    let words: Vec<String> = std::env::args().skip(1).collect();
    if words.first().is_some_and(|word| word == "run") {
        return run::answer(&words[1..]);
    }
    let is_asked = |word: &str| words.iter().any(|given| given == word);
    let (quick, markdown) = (is_asked("quick"), is_asked("markdown"));
    if is_asked("order") {
        return print_order(quick, markdown);
    }
    if !is_asked("check") {
        print_first_tables(quick, markdown);
    }
    if markdown {
        print_heading("The whole check", markdown);
    }
    check::print_full_tables(quick, markdown);
    check::print_forged_tables(quick, is_asked("worst"), markdown);
    bounded::print_forged_tables(quick, markdown);
}
