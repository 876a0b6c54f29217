// Generated from crates/odht_table/src/main.rt by make generate.
//! Reads a script from standard input and answers each of its lines on standard output.
//!
//! The script works on one table from `u64` to `u32`, which grows as it fills. `script::run` says
//! what each line does.

use crate::host::prelude::*;

mod script;

use crate::generated::tables::configs::U64ToU32;
use crate::host::io::{BufWriter, Read, Write};
use crate::shim::Global;
use script::{run, Fault};
use std::process::ExitCode;

pub fn main(rt: HostRuntime) -> ExitCode {
    match run_buffered(rt.alloc(), &mut rt.stdin(), rt.stdout()) {
        Ok(_) => ExitCode::SUCCESS,
        Err(fault) => {
            // Where writing to standard error fails too, only the status reports the fault.
            let _ = writeln!(rt.stderr(), "{fault}");
            ExitCode::FAILURE
        }
    }
}

// Answers come in small pieces: a buffer joins them. The writer is returned once the buffer is
// empty.
fn run_buffered<R: Read, W: Write>(alloc: Global, input: &mut R, output: W) -> Result<W, Fault> {
    let mut output = BufWriter::new(alloc, output).or(Err(Fault::Memory))?;
    run(alloc, input, &mut output)?;
    output.into_inner().or(Err(Fault::Write))
}
