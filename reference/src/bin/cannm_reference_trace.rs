//! Runs a trace.
//!
//! `cannm_reference_trace [FILE]` reads FILE, or standard input, and prints to
//! standard output. Exit status 0: the run is over, also where a line or the
//! configuration was refused; 1: input or output failed; 2: bad arguments.

use cannm_reference::program;
use cannm_reference::trace::run;
use std::fs::File;
use std::io;
use std::process::ExitCode;

const PROGRAM: &str = "cannm_reference_trace";

fn main() -> ExitCode {
    let mut arguments = std::env::args_os().skip(1);
    let output = io::stdout().lock();
    let outcome = match (arguments.next(), arguments.next()) {
        (None, _) => run(io::stdin().lock(), output),
        (Some(name), None) => File::open(name).and_then(|file| run(file, output)),
        _ => return program::usage(PROGRAM, "[FILE]"),
    };
    program::status(PROGRAM, outcome)
}
