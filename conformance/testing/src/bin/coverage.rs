//! `coverage SEED COUNT`: counts what happens over COUNT journals, ten times as
//! many single calls, and as many plans for the largest number of entries; fails
//! where a row is below its floor. Floors stand for the default batch and shrink
//! in proportion below it.

use std::process::ExitCode;

use testing::coverage::{self, Row, JOURNALS, SINGLES_PER_JOURNAL};

fn argument(n: usize, default: u64) -> u64 {
    let given = std::env::args().nth(n);
    given.and_then(|a| a.parse().ok()).unwrap_or(default)
}

/// Prints a row; whether it reaches its floor.
fn print_row(row: &Row, journals: u64) -> bool {
    let floor = row.floor * journals / JOURNALS;
    let passes = row.count >= floor;
    let mark = if passes { "" } else { "  BELOW" };
    println!("{:<45} {:>9} {:>9}{mark}", row.name, row.count, floor);
    passes
}

fn main() -> ExitCode {
    let seed = argument(1, 1);
    let journals = argument(2, JOURNALS);
    let singles = journals * SINGLES_PER_JOURNAL;
    println!("seed {seed}: {journals} journals, {singles} single calls, {journals} plans");
    println!("{:<45} {:>9} {:>9}", "row", "count", "floor");
    let rows = coverage::batch(seed, journals).rows();
    let below = rows.iter().filter(|row| !print_row(row, journals)).count();
    println!("{} rows, {below} below their floor", rows.len());
    ExitCode::from(u8::from(below > 0))
}
