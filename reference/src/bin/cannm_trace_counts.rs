//! Counts what a set of traces shows.
//!
//! `cannm_trace_counts DIR` runs every file of DIR whose name ends in `.trace`
//! and prints how often each kind of line, answer, state and note was seen.
//! Exit status 0: each at least once; 1: one never, or a file can't be read;
//! 2: bad arguments.

use cannm_reference::counts::{Counts, Kind};
use cannm_reference::program;
use cannm_reference::trace::run;
use std::fs;
use std::io::{self, Write};
use std::path::Path;
use std::process::ExitCode;

const PROGRAM: &str = "cannm_trace_counts";

fn main() -> ExitCode {
    let arguments: Vec<_> = std::env::args_os().skip(1).collect();
    let [directory] = arguments.as_slice() else {
        return program::usage(PROGRAM, "DIR");
    };
    program::status(PROGRAM, count(Path::new(directory)))
}

fn count(directory: &Path) -> io::Result<()> {
    let mut counts = Counts::new();
    let mut traces = 0;
    for entry in fs::read_dir(directory)? {
        let path = entry?.path();
        if path
            .extension()
            .is_none_or(|extension| extension != "trace")
        {
            continue;
        }
        let text = fs::read(&path)?;
        let mut output = Vec::new();
        run(text.as_slice(), &mut output)?;
        counts.add(&text, &output).map_err(|line| {
            let place = path.display();
            io::Error::other(format!("{place}: line {line} of the output is not one"))
        })?;
        traces += 1;
    }
    let mut out = io::stdout().lock();
    writeln!(out, "{traces:>9}  traces")?;
    for kind in Kind::all() {
        writeln!(out, "{:>9}  {}", counts.of(kind), kind.text())?;
    }
    match counts.missing().len() {
        0 => Ok(()),
        missing => Err(io::Error::other(format!("{missing} kinds never seen"))),
    }
}
