//! The proved calls, the program `unwind` and the second program on the same
//! random input, until a difference, or until as many cases as asked for agree.
//! Single calls are at either limit, journals through the calls at both.
//!
//! `comparison PROGRAMS run SEED JOURNALS CALLS` compares so many, the largest
//! numbers of entries of as many plans as journals, and all conversions, and
//! holds what happened to the floors of coverage. `comparison PROGRAMS on SEED`
//! goes on with seed after seed until stopped. `comparison PROGRAMS stored FILE`
//! makes the stored calls of a file. `comparison PROGRAMS again FILE` runs the
//! cases of a file of differences once more. PROGRAMS is a folder with the
//! programs `calls` and `unwind`.
//!
//! Exit status: 0 no difference, 1 a difference or a row below its floor, 2
//! there is no verdict.

mod case;
mod comparison;
mod conversions;
mod expected;
mod guarded;
mod journals;
mod paths;

use std::fs;
use std::io;
use std::path::Path;
use std::process::ExitCode;

use testing::calls;
use testing::coverage::{JOURNALS, SINGLES_PER_JOURNAL};

use case::Again;
use comparison::{Comparison, Verdict, BEGINS};

/// Prints a difference and keeps it where it can be run again.
fn report(programs: &Path, text: &str) -> io::Result<()> {
    let file = programs.join("difference");
    fs::write(&file, text)?;
    print!("{text}");
    println!("once more: conformance/compare again {}", file.display());
    Ok(())
}

/// So many cases; whether they agree and cover what they should.
fn run(programs: &Path, seed: u64, journals: u64, calls: u64) -> io::Result<bool> {
    let mut comparison = Comparison::new(programs)?;
    let (mut verdict, conversions) = comparison.conversions(seed)?;
    if matches!(verdict, Verdict::Agree) {
        verdict = comparison.singles(seed, calls)?;
    }
    if matches!(verdict, Verdict::Agree) {
        verdict = comparison.plans(seed, journals)?;
    }
    if matches!(verdict, Verdict::Agree) {
        verdict = comparison.journals(seed, journals)?;
    }
    if let Verdict::Differ(text) = verdict {
        report(programs, &text)?;
        return Ok(false);
    }
    let covered = comparison.covers(journals.min(calls / SINGLES_PER_JOURNAL));
    let begins = (calls + BEGINS - 1) / BEGINS;
    let tracks = paths::tracks().count();
    println!(
        "seed {seed}: {journals} journals, {calls} single calls, {begins} begins and reads, \
        {journals} plans for {tracks} tracks each, {conversions} conversions, 0 differences"
    );
    Ok(covered)
}

/// Batch after batch until stopped, or until one differs.
fn on(programs: &Path, seed: u64) -> io::Result<bool> {
    let calls = JOURNALS * SINGLES_PER_JOURNAL;
    for seed in seed.. {
        if !run(programs, seed, JOURNALS, calls)? {
            return Ok(false);
        }
    }
    Ok(true)
}

/// The stored calls; whether the file is the second program's, and the proved
/// calls answer as it says.
fn stored(programs: &Path, file: &str) -> io::Result<bool> {
    let text = fs::read_to_string(file)?;
    if text != calls::text() {
        println!("{file} is not what the second program gives");
        return Ok(false);
    }
    let comparison = Comparison::new(programs)?;
    let mut count = 0;
    for line in text.lines().filter(|line| !line.starts_with('#')) {
        let verdict = match case::parse(line) {
            Some(Again::Call(given)) => comparison.single(&given)?,
            _ => return Err(io::ErrorKind::InvalidData.into()),
        };
        if let Verdict::Differ(text) = verdict {
            report(programs, &text)?;
            return Ok(false);
        }
        count += 1;
    }
    println!("{count} stored calls, 0 differences");
    Ok(true)
}

/// The cases of a file, once more.
fn again(programs: &Path, file: &str) -> io::Result<bool> {
    let comparison = Comparison::new(programs)?;
    let mut agree = true;
    for again in fs::read_to_string(file)?.lines().filter_map(case::parse) {
        let verdict = match again {
            Again::Call(given) => comparison.single(&given)?,
            Again::Journal(limit, case) => comparison.journal(limit, &case)?,
        };
        if let Verdict::Differ(text) = verdict {
            print!("{text}");
            agree = false;
        }
    }
    println!(
        "{}",
        if agree {
            "no difference"
        } else {
            "differences"
        }
    );
    Ok(agree)
}

fn number(text: &str) -> io::Result<u64> {
    text.parse()
        .map_err(|_| io::Error::new(io::ErrorKind::Other, format!("{text} is no number")))
}

fn done(words: &[&str]) -> io::Result<bool> {
    match *words {
        [programs, "run", seed, journals, calls] => {
            let (seed, journals, calls) = (number(seed)?, number(journals)?, number(calls)?);
            run(Path::new(programs), seed, journals, calls)
        }
        [programs, "on", seed] => on(Path::new(programs), number(seed)?),
        [programs, "stored", file] => stored(Path::new(programs), file),
        [programs, "again", file] => again(Path::new(programs), file),
        _ => Err(io::Error::new(
            io::ErrorKind::Other,
            "usage: PROGRAMS run SEED JOURNALS CALLS",
        )),
    }
}

fn main() -> ExitCode {
    let given: Vec<String> = std::env::args().skip(1).collect();
    let words: Vec<&str> = given.iter().map(String::as_str).collect();
    match done(&words) {
        Ok(true) => ExitCode::SUCCESS,
        Ok(false) => ExitCode::FAILURE,
        Err(error) => {
            eprintln!("comparison: {error}");
            ExitCode::from(2)
        }
    }
}
