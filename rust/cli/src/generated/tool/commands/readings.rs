// Generated from crates/odht_tool/src/commands/readings.rt by make generate.
//! The commands that only read their file, over the bytes of the file.
use crate::generated::core::arguments::{Keys, Reading};
use crate::generated::core::failure::Failure;
use crate::generated::core::forms::Kinds;
use crate::generated::core::info::info_file;
use crate::generated::core::job::{Job, Streams};
use crate::generated::core::shapes::Hash;
use crate::generated::core::status::Status;
use crate::generated::core::typed::Side;
use crate::generated::reads::commands::{check, count, dump, find, get, keys, order};
use crate::generated::reads::lookups::arriving::Arriving;
use crate::generated::reads::lookups::Coming;
use crate::generated::tool_tables::trials::advice_of;
use crate::host::prelude::*;
use crate::shim::Global;
use std::io::{BufRead, Write};

/// Runs a command that only reads its file. Of an input it reads the lines that are left.
pub fn run_reading<I: BufRead + Arriving, O: Write, E: Write>(
    job: &Job<'_>,
    reading: &Reading,
    coming: Coming,
    streams: &mut Streams<'_, '_, '_, I, O, E>,
) -> Result<Status, Failure> {
    let Job { alloc, file, is_one, bytes, .. } = *job;
    let (output, errors) = (&mut *streams.output, &mut *streams.errors);
    match reading {
        Reading::Info { bound, is_json } => {
            let advice = advice_of(alloc, bytes)?;
            let job = Job { bound: *bound, is_json: *is_json, ..*job };
            info_file(&job, advice, output)
        }
        Reading::Check { hash, bound, is_json } => {
            let job = Job { bound: *bound, is_json: *is_json, ..*job };
            check_one(&job, *hash, output, errors)
        }
        Reading::Count { hash, bound, is_checked } => {
            let checked = if *is_checked { Some((*hash, *bound)) } else { None };
            let label = count_label(alloc, file, is_one)?;
            count::count_file(label.as_str(), bytes, checked, output)
        }
        Reading::Get { hash, kinds, bound, keys: Keys::Words(words), is_values, is_json } => {
            let job = Job { bound: *bound, is_values: *is_values, is_json: *is_json, ..*job };
            get::get_file_words(&job, *hash, *kinds, words.as_slice(), output)
        }
        Reading::Get { hash, kinds, bound, keys: Keys::Lines, is_values, is_json } => {
            let job = Job { bound: *bound, is_values: *is_values, is_json: *is_json, ..*job };
            get::get_file_lines(&job, *hash, *kinds, coming, streams.input, output)
        }
        Reading::Find { bound, is_json } => {
            let job = Job { bound: *bound, is_json: *is_json, ..*job };
            find_in(&job, output, errors)
        }
        Reading::Dump { hash, kinds, is_values: true, is_json, .. } => {
            keys::list_file(Side::Value, bytes, *hash, *kinds, *is_json, output)
        }
        Reading::Dump { hash, kinds, bound, is_slots: true, is_json, .. } => {
            dump::dump_slots(bytes, *hash, *kinds, *bound, *is_json, output)
        }
        Reading::Dump { hash, kinds, is_json, .. } => {
            dump::dump_file(bytes, *hash, *kinds, false, *is_json, output)
        }
        Reading::Keys { hash, kinds, is_json } => {
            keys::list_file(Side::Key, bytes, *hash, *kinds, *is_json, output)
        }
        Reading::Order { hash, kinds, bound } => {
            let job = Job { bound: *bound, ..*job };
            order_in(&job, *hash, *kinds, output, errors)
        }
    }
}

// Checks a file. Where another hash function fits, a line on `errors` names it, behind that of the
// check.
fn check_one<O: Write, E: Write>(
    job: &Job<'_>,
    hash: Option<Hash>,
    output: &mut O,
    errors: &mut E,
) -> Result<Status, Failure> {
    let status = check::check_file(job, hash, output)?;
    if !status.is_done() {
        if let Some(other) = check::hint_of(job.bytes, hash) {
            output.flush().map_err(Failure::Output)?;
            // A hint that cannot be written is no failure.
            let _ = check::write_hint(job.file, other, errors);
        }
    }
    Ok(status)
}

/// What stands before the count of a file: its name and a tab where there are more files.
pub fn count_label(alloc: Global, file: &str, is_one: bool) -> Result<String, Failure> {
    let label = if is_one {
        crate::host::texts::formatted(alloc, format_args!(""))?
    } else {
        crate::host::texts::formatted(alloc, format_args!("{file}\t"))?
    };
    Ok(label)
}

// Finds the tables in a file, whose name comes first where there are more files. Where there is no
// table, a line on `errors` says so.
fn find_in<O: Write, E: Write>(
    job: &Job<'_>,
    output: &mut O,
    errors: &mut E,
) -> Result<Status, Failure> {
    let file = job.file;
    if !job.is_one && !job.is_json {
        writeln!(output, "{file}").map_err(Failure::Output)?;
    }
    let status = find::find_file(job, output)?;
    if !status.is_done() {
        output.flush().map_err(Failure::Output)?;
        // A line that cannot be written is no failure.
        let _ = find::write_none(file, errors);
    }
    Ok(status)
}

// Writes the pairs of a file in an order of inserts. Where no inserts make the table, a line on
// `errors` says so.
fn order_in<O: Write, E: Write>(
    job: &Job<'_>,
    hash: Option<Hash>,
    kinds: Kinds,
    output: &mut O,
    errors: &mut E,
) -> Result<Status, Failure> {
    let status = order::order_file(job.alloc, job.bytes, hash, kinds, job.bound, output)?;
    if !status.is_done() {
        // A line that cannot be written is no failure.
        let _ = order::write_unmade(job.file, errors);
    }
    Ok(status)
}
