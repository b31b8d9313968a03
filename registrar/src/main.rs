//! `registrar`: plans and journals as text, with the retractions listed beside
//! each step.

use registrar::command::{self, Answer};
use registrar::phrase;
use std::io::{self, ErrorKind, Write};
use std::process::ExitCode;

/// Prints an answer. A reader that has gone away is no fault; output that cannot
/// be written is.
fn deliver(answer: &Answer) -> io::Result<()> {
    let mut out = io::stdout();
    let printed = out.write_all(answer.printed.as_bytes());
    let printed = printed.and_then(|()| out.flush());
    // Where standard error cannot be written to there is nobody to be told.
    let _ = io::stderr().write_all(answer.said.as_bytes());
    printed
}

fn main() -> ExitCode {
    let words = std::env::args_os().skip(1);
    let words: Vec<String> = words.map(|word| word.to_string_lossy().into()).collect();
    let answer = command::run(&words);
    match deliver(&answer) {
        Err(error) if error.kind() != ErrorKind::BrokenPipe => {
            eprintln!("registrar: standard output: {}", phrase::error(&error));
            ExitCode::from(2)
        }
        _ => ExitCode::from(answer.status),
    }
}
