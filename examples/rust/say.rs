//! Prints results as examples/c does: each status of the library as a number and a text.

use odht_ffi::Error;

const OK: &str = "0 ok";
const ABSENT: &str = "32 absent";
const REPLACED: &str = "33 replaced";
const UNMADE: &str = "37 unmade";

/// Returns the status of a result.
pub fn status<T>(answer: &Result<T, Error>) -> String {
    match answer {
        Ok(_) => OK.to_string(),
        Err(error) => format!("{} {error}", error.number()),
    }
}

pub fn say<T>(what: &str, answer: Result<T, Error>) {
    println!("{what}: {}", status(&answer));
}

/// Prints a result, and returns it.
pub fn printed<T>(what: &str, answer: Result<T, Error>) -> Result<T, Error> {
    println!("{what}: {}", status(&answer));
    answer
}

/// Prints a result with a number, such as a count of items.
pub fn number(what: &str, answer: Result<usize, Error>, unit: &str) {
    match answer {
        Ok(number) => println!("{what}: {OK}, {number} {unit}"),
        Err(_) => say(what, answer),
    }
}

pub fn accepted(what: &str, (accepted, answer): (usize, Result<(), Error>)) {
    println!("{what}: {}, {accepted} accepted", status(&answer));
}

pub fn former(what: &str, answer: Result<Option<u32>, Error>) {
    match answer {
        Ok(Some(former)) => println!("{what}: {REPLACED}, the former value is {former}"),
        other => say(what, other),
    }
}

pub fn value(what: &str, found: Option<u32>) {
    match found {
        Some(value) => println!("{what}: {OK}, value {value}"),
        None => println!("{what}: {ABSENT}"),
    }
}

/// Prints the flags and values of a lookup of many keys.
pub fn found(what: &str, answer: Result<(), Error>, found: &[u8], values: &[u32]) {
    let found: Vec<String> = found.iter().map(u8::to_string).collect();
    let values: Vec<String> = values.iter().map(u32::to_string).collect();
    println!("{what}: {}, found {}, values {}", status(&answer), found.join(" "), values.join(" "));
}

/// Prints the result of a call for an order of inserts.
pub fn order(what: &str, answer: &Result<Option<Vec<usize>>, Error>) {
    match answer {
        Ok(Some(slots)) => {
            let listed: String = slots.iter().map(|slot| format!(" {slot}")).collect();
            println!("{what}: {OK}, slots{listed}");
        }
        Ok(None) => println!("{what}: {UNMADE}"),
        Err(_) => println!("{what}: {}", status(answer)),
    }
}

/// Prints the number of pairs of a walk, and the sums of their keys and values.
pub fn sums(pairs: &[(u64, u32)]) {
    let keys: u64 = pairs.iter().map(|pair| pair.0).sum();
    let values: u64 = pairs.iter().map(|pair| u64::from(pair.1)).sum();
    println!("walk: {OK}, {} pairs, the keys add up to {keys}, the values to {values}", pairs.len());
}
