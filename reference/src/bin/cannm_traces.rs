//! Makes traces at random; the same seed always gives the same ones.
//!
//! `cannm_traces SEED COUNT DIR` writes COUNT hard traces into DIR, each to a
//! file of its own. `cannm_traces SEED BYTES -` writes one long trace of about
//! BYTES bytes to standard output. Exit status 0: all written; 1: a write
//! failed; 2: bad arguments.

use cannm_reference::generate::{hard_traces, LongTrace};
use cannm_reference::program;
use cannm_reference::trace::BLOCK;
use std::ffi::OsStr;
use std::fs;
use std::io::{self, Write};
use std::path::Path;
use std::process::ExitCode;

const PROGRAM: &str = "cannm_traces";
const ARGUMENTS: &str = "SEED COUNT DIR, or SEED BYTES -";

fn main() -> ExitCode {
    let arguments: Vec<_> = std::env::args_os().skip(1).collect();
    let [seed, amount, place] = arguments.as_slice() else {
        return program::usage(PROGRAM, ARGUMENTS);
    };
    let (Some(seed), Some(amount)) = (number(seed), number(amount)) else {
        return program::usage(PROGRAM, ARGUMENTS);
    };
    let outcome = if place == "-" {
        write_long(seed, amount)
    } else {
        write_hard(seed, amount, Path::new(place))
    };
    program::status(PROGRAM, outcome)
}

fn number(text: &OsStr) -> Option<u64> {
    text.to_str()?.parse().ok()
}

fn write_hard(seed: u64, count: u64, directory: &Path) -> io::Result<()> {
    fs::create_dir_all(directory)?;
    for (number, trace) in (0..count).zip(hard_traces(seed)) {
        fs::write(directory.join(format!("{number:05}.trace")), trace)?;
    }
    Ok(())
}

fn write_long(seed: u64, bytes: u64) -> io::Result<()> {
    let mut output = io::stdout().lock();
    let mut piece = Vec::with_capacity(2 * BLOCK);
    let mut long = LongTrace::new(seed, &mut piece);
    let mut written = 0;
    while written < bytes {
        long.append(&mut piece);
        if piece.len() >= BLOCK || written + piece.len() as u64 >= bytes {
            output.write_all(&piece)?;
            written += piece.len() as u64;
            piece.clear();
        }
    }
    output.flush()
}
