//! Prints tables of times: the proved calls beside the second program's and
//! the fast one's at both limits, the sum of a plan's bytes alone, days and
//! dates, the largest number of entries, whole runs, and how each call grows. The
//! sides make the same checks on each call; rounds alternate between them, and
//! each figure is a median.
//!
//! `bench calls | sums | days | largest | scaling`, `bench runs PROVED SECOND
//! FAST` with three programs `unwind`, `bench all PROVED SECOND FAST` print
//! tables, and in the last line whether the machine was disturbed. For a
//! profiler: `bench one PLAN CALL [LIMIT]` makes one round of the proved calls
//! alone, at limit 32 if none is given, `bench write PLAN FOLDER` writes the plan
//! and its journal.

mod calls;
mod cases;
mod days;
mod largest;
mod rounds;
mod runs;
mod scaling;
mod shapes;
mod sums;

use std::io;
use std::path::Path;

use bench::sides::LIMITS;
use cases::Case;
use retraction::Limit;
use rounds::Rounds;

const USAGE: &str = "usage: bench calls | sums | days | largest | scaling | \
    runs PROVED SECOND FAST | all PROVED SECOND FAST | one PLAN CALL [LIMIT] | write PLAN FOLDER";

fn main() -> io::Result<()> {
    let words: Vec<String> = std::env::args().skip(1).collect();
    let words: Vec<&str> = words.iter().map(String::as_str).collect();
    let cases = Case::all()?;
    let mut rounds = Rounds::new();
    match words[..] {
        ["calls"] => calls::print(&mut rounds, &cases),
        ["sums"] => sums::print(&mut rounds, &cases),
        ["days"] => days::print(&mut rounds),
        ["largest"] => largest::print(&mut rounds, &cases),
        ["scaling"] => scaling::print(&mut rounds),
        ["runs", proved, second, fast] => {
            runs::print(&mut rounds, &cases, [proved, second, fast])?;
        }
        ["all", proved, second, fast] => {
            calls::print(&mut rounds, &cases);
            println!();
            sums::print(&mut rounds, &cases);
            println!();
            days::print(&mut rounds);
            println!();
            largest::print(&mut rounds, &cases);
            println!();
            runs::print(&mut rounds, &cases, [proved, second, fast])?;
            println!();
            scaling::print(&mut rounds);
        }
        ["one", plan, call, ref limit @ ..] => {
            let limit = read_limit(limit)?;
            calls::one(&cases, plan, call, limit);
            calls::one(&Case::rows(), plan, call, limit);
            return Ok(());
        }
        ["write", plan, folder] => {
            return match cases.iter().find(|case| case.name == plan) {
                Some(case) => runs::write(case, Path::new(folder)),
                None => Err(wrong("no such plan")),
            }
        }
        _ => return Err(wrong(USAGE)),
    }
    println!("\n## The machine\n\n{}", rounds.verdict());
    Ok(())
}

fn wrong(text: &str) -> io::Error {
    io::Error::new(io::ErrorKind::Other, text)
}

/// The limit that is named by its number of entries, if one is.
fn read_limit(words: &[&str]) -> io::Result<Limit> {
    let named = |word: &str| LIMITS.into_iter().find(|l| l.entries().to_string() == word);
    match words {
        [] => Ok(Limit::default()),
        [word] => named(word).ok_or_else(|| wrong("no such limit")),
        _ => Err(wrong(USAGE)),
    }
}
