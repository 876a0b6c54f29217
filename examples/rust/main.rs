//! Makes tables, stores one of them in the file that its only argument names, reads the file, looks keys up, and
//! prints the errors of damaged bytes. It prints the same as examples/c.

mod refusals;
mod say;

use odht_ffi::{bytes_needed, empty_table, Builder, Error, Table, TableMut, B16U32, U64U32};
use say::{say, printed};

pub const PAIRS: usize = 40;
pub const PERCENT: u8 = 87;
pub const LENGTH: usize = 880;

// ---- Keys of 64 bits ----

/// Returns the pairs 1 to 10, 2 to 20, and so on.
fn pairs(count: usize) -> (Vec<u64>, Vec<u32>) {
    ((1..=count as u64).collect(), (1..=count as u32).map(|number| 10 * number).collect())
}

fn make_table() -> Result<Vec<u8>, Error> {
    let (keys, values) = pairs(PAIRS);
    println!("keys of 64 bits, a table for 40 items at 87 percent");
    let length = bytes_needed::<U64U32>(PAIRS, PERCENT);
    say::number("bytes_needed", length, "bytes");
    let mut bytes = vec![0; length?];
    let mut table = printed("init", TableMut::<U64U32>::init(&mut bytes, PAIRS, PERCENT))?;
    say::former("insert 1 to 10", table.insert(&1, 10));
    say::accepted("insert_all 2 to 20 until 40 to 400", table.insert_all(&keys[1..], &values[1..]));
    say::former("insert 7 to 1000", table.insert(&7, 1000));
    Ok(bytes)
}

fn look_up(bytes: &[u8]) -> Result<(), Error> {
    let table = printed("open", Table::<U64U32>::open(bytes))?;
    for key in [1, 7, 40, 0, 41, 1000000] {
        say::value(&format!("get {key}"), table.get(&key));
    }
    let (mut values, mut found) = ([5; 4], [0; 4]);
    let answer = table.get_all_into(&[1, 41, 40, 0], &mut values, &mut found);
    say::found("get_all 1 41 40 0", answer, &found, &values);
    Ok(())
}

/// Looks keys up in a `Table`. Like a view in C it is opened once, and does not check the header again.
fn look_up_in_view(bytes: &[u8]) -> Result<(), Error> {
    let table = printed("open_view", Table::<U64U32>::open(bytes))?;
    say("open_view without the last byte", Table::<U64U32>::open(&bytes[..LENGTH - 1]));
    for key in [7, 41] {
        say::value(&format!("view_get {key}"), table.get(&key));
    }
    let (mut values, mut found) = ([5; 3], [0; 3]);
    let answer = table.get_all_into(&[41, 7, 40], &mut values, &mut found);
    say::found("view_get_all 41 7 40", answer, &found, &values);
    println!("view_len: {} items", table.len());
    Ok(())
}

fn walk(bytes: &[u8]) -> Result<(), Error> {
    let table = Table::<U64U32>::open(bytes)?;
    say::number("len", Ok(table.len()), "items");
    let pairs: Vec<(u64, u32)> = table.iter().collect();
    say::sums(&pairs);
    let (first, last) = (pairs[0], pairs[PAIRS - 1]);
    println!("walk: the first pair is {} to {}, the last is {} to {}", first.0, first.1, last.0, last.1);
    let (mut cursor, mut keys, mut values) = (0, [0; PAIRS], [0; PAIRS]);
    let walked = table.walk(&mut cursor, &mut keys[1..], &mut values[1..])?;
    let answer = if walked.more { Err(Error::TooSmall) } else { Ok(()) };
    say("walk into 39 places", answer);
    let rest = table.walk(&mut cursor, &mut keys, &mut values)?;
    say::number("walk on", Ok(rest.count), &format!("pair, {} to {}", keys[0], values[0]));
    Ok(())
}

/// Builds the stored table again with one call, from the pairs in it.
fn build(bytes: &[u8]) -> Result<(), Error> {
    let (keys, mut values) = pairs(PAIRS);
    values[7 - 1] = 1000;
    let mut builder = Builder::<U64U32>::new(PERCENT);
    builder.extend(keys.into_iter().zip(values));
    let answer = builder.build_into(&mut [0; LENGTH - 1]);
    println!("build into 879 bytes: {}, {} bytes", say::status(&answer), builder.bytes_needed()?);
    for (what, built) in [("build", builder.build()), ("build_growing", builder.build_growing())] {
        let status = say::status(&built);
        let built = built?;
        let likeness = if built == bytes { "equal to" } else { "unlike" };
        println!("{what}: {status}, {} bytes, {likeness} the stored bytes", built.len());
    }
    Ok(())
}

fn fill_to_the_maximum() -> Result<(), Error> {
    let (keys, values) = pairs(20);
    let mut bytes = [0; 256];
    println!("\na table for 13 items at 87 percent");
    say::number("bytes_needed", bytes_needed::<U64U32>(13, PERCENT), "bytes");
    let mut table = printed("init", TableMut::<U64U32>::init(&mut bytes, 13, PERCENT))?;
    say::accepted("insert_all 1 to 10 until 20 to 200", table.insert_all(&keys, &values));
    say::former("insert 14 to 140", table.insert(&14, 140));
    say::former("insert 7 to 1000", table.insert(&7, 1000));
    let table = table.into_table();
    say::value("get 7", table.get(&7));
    say::number("len", Ok(table.len()), "items");
    Ok(())
}

/// Inserts the pairs into an empty table of 16 slots, and returns whether its bytes are `bytes`.
fn insert_again(what: &str, pairs: impl Iterator<Item = (u64, u32)>, bytes: &[u8]) -> Result<(), Error> {
    let mut again = empty_table::<U64U32>(13, PERCENT)?;
    let mut table = TableMut::<U64U32>::open(&mut again)?;
    for (key, value) in pairs {
        table.insert(&key, value)?;
    }
    println!("{what}: {} bytes", if again == bytes { "same" } else { "other" });
    Ok(())
}

fn order_of_inserts() -> Result<(), Error> {
    let mut bytes = [0; 256];
    println!("\nan order of inserts");
    let mut table = printed("init", TableMut::<U64U32>::init(&mut bytes, 13, PERCENT))?;
    say::accepted("insert_all 3 19 35", table.insert_all(&[3, 19, 35], &[30, 190, 350]));
    let table = Table::<U64U32>::open(&bytes)?;
    insert_again("inserts in slot order", table.iter(), &bytes)?;
    let answer = table.insert_order();
    say::order("insert_order", &answer);
    let order = answer?.expect("inserts have made the table");
    let mut slots = order.clone();
    slots.sort_unstable();
    let place = |slot: usize| slots.binary_search(&slot).expect("the slot is one of them");
    let pairs: Vec<(u64, u32)> = table.iter().collect();
    insert_again("inserts in this order", order.iter().map(|slot| pairs[place(*slot)]), &bytes)?;
    say("insert_order into 2 places", table.insert_order_into(&mut [0; 2]));
    Ok(())
}

// ---- Keys of 16 bytes ----

/// Returns the pairs 1 to 100, 2 to 200, and so on. All bytes of a key are its number.
fn byte_pairs(count: u8) -> (Vec<[u8; 16]>, Vec<u32>) {
    let values = (1..=u32::from(count)).map(|number| 100 * number);
    ((1..=count).map(|number| [number; 16]).collect(), values.collect())
}

fn look_up_bytes(table: Table<B16U32>, keys: &[[u8; 16]]) {
    for number in [3, 9] {
        say::value(&format!("get {number}"), table.get(&keys[number - 1]));
    }
    let (mut values, mut found) = ([5; 3], [0; 3]);
    let answer = table.get_all_into(&[keys[0], keys[8], keys[4]], &mut values, &mut found);
    say::found("get_all 1 9 5", answer, &found, &values);
    say::number("len", Ok(table.len()), "items");
    let pairs: Vec<(u64, u32)> = table.iter().map(|(key, value)| (u64::from(key[0]), value)).collect();
    say::sums(&pairs);
}

/// Looks keys up. A `Table` borrows the bytes, so after an insert a new one is needed.
fn insert_between_views(bytes: &mut [u8], key: &[u8; 16]) -> Result<(), Error> {
    let view = printed("open_view", Table::<B16U32>::open(bytes))?;
    say::value("view_get 6", view.get(key));
    let mut table = TableMut::<B16U32>::open(bytes)?;
    say::former("insert 6 to 600", table.insert(key, 600));
    let view = table.as_table();
    say::value("view_get 6", view.get(key));
    println!("view_len: {} items", view.len());
    Ok(())
}

fn byte_keys() -> Result<(), Error> {
    let (keys, values) = byte_pairs(9);
    let mut bytes = [0; 384];
    println!("\nkeys of 16 bytes, a table for 5 items at 50 percent");
    say::number("bytes_needed", bytes_needed::<B16U32>(5, 50), "bytes");
    let mut table = printed("init", TableMut::<B16U32>::init(&mut bytes, 5, 50))?;
    say::former("insert 1 to 100", table.insert(&keys[0], 100));
    say::former("insert 1 to 150", table.insert(&keys[0], 150));
    say::accepted("insert_all 2 to 200 until 5 to 500", table.insert_all(&keys[1..5], &values[1..5]));
    look_up_bytes(table.as_table(), &keys);
    insert_between_views(&mut bytes, &keys[5])?;
    let mut table = TableMut::<B16U32>::open(&mut bytes)?;
    say::accepted("insert_all 6 to 600 until 9 to 900", table.insert_all(&keys[5..], &values[5..]));
    say("open as keys of 64 bits", Table::<U64U32>::open(&bytes));
    say("check", Table::<B16U32>::checked(&bytes));
    bytes[369] = 255;
    say("check where byte 369 is 255", Table::<B16U32>::checked(&bytes));
    Ok(())
}

/// First each key is in its home. Then two keys are in each other's homes.
fn unmade_table() -> Result<(), Error> {
    let mut bytes = [0; 1392];
    println!("\na valid table that no inserts make");
    let mut table = printed("init", TableMut::<B16U32>::init(&mut bytes, 48, PERCENT))?;
    for number in (0..33).chain(49..64) {
        let mut key = [0; 16];
        key[12] = number;
        table.insert(&key, u32::from(number))?;
    }
    say("insert_order", table.as_table().insert_order());
    (bytes[44], bytes[64]) = (1, 0);
    let table = printed("check where 0 and 1 change places", Table::<B16U32>::checked(&bytes))?;
    say::order("insert_order", &table.insert_order());
    Ok(())
}

fn main() -> Result<(), Box<dyn std::error::Error>> {
    let Some(path) = std::env::args_os().nth(1) else {
        return Err("usage: example FILE".into());
    };
    let made = make_table()?;
    std::fs::write(&path, &made)?;
    let bytes = std::fs::read(&path)?;
    println!("stored {} bytes, there are {} bytes", made.len(), bytes.len());
    look_up(&bytes)?;
    look_up_in_view(&bytes)?;
    walk(&bytes)?;
    build(&bytes)?;
    fill_to_the_maximum()?;
    order_of_inserts()?;
    byte_keys()?;
    unmade_table()?;
    refusals::open_damaged(&bytes);
    refusals::check_damaged(&bytes);
    refusals::wrong_arguments(&bytes)?;
    Ok(())
}
