//! How the programs of this package end.

use std::io::{self, Write};
use std::process::ExitCode;

/// Exit status 0 if all went well, else 1 with a message.
pub fn status(program: &str, outcome: io::Result<()>) -> ExitCode {
    match outcome {
        Ok(()) => ExitCode::SUCCESS,
        Err(error) => {
            tell(program, &error.to_string());
            ExitCode::FAILURE
        }
    }
}

/// Exit status 2, with the arguments that the program takes.
pub fn usage(program: &str, arguments: &str) -> ExitCode {
    tell(program, &format!("usage: {program} {arguments}"));
    ExitCode::from(2)
}

/// A line on standard error; unlike `eprintln`, no panic if that is closed.
fn tell(program: &str, text: &str) {
    let _ = writeln!(io::stderr(), "{program}: {text}");
}
