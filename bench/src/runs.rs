//! Times of whole runs: the program `unwind` and both opponents', each from
//! its start to its end.

use std::fs::{self, File};
use std::io;
use std::path::{Path, PathBuf};
use std::process::{Command, Stdio};
use std::time::Instant;

use crate::cases::Case;
use crate::rounds::Rounds;

/// Runs of each side.
const ROUNDS: usize = 101;

/// The table of all plans, with the programs proved, second and fast.
pub fn print(rounds: &mut Rounds, cases: &[Case], programs: [&str; 3]) -> io::Result<()> {
    let [proved, second, fast] = programs.map(fs::canonicalize);
    let programs = [proved?, second?, fast?];
    println!("## Whole runs\n");
    println!(
        "| Plan | Journal, bytes | Proved, µs | Second, µs | Fast, µs | Proved to second | Proved to fast |"
    );
    println!("|---|---:|---:|---:|---:|---:|---:|");
    for case in cases {
        let [proved, second, fast] = times(rounds, case, &programs)?;
        let (label, bytes) = (case.label(), case.journal.len());
        let (to_second, to_fast) = (proved / second, proved / fast);
        println!(
            "| {label} | {bytes} | {proved:.0} | {second:.0} | {fast:.0} | {to_second:.2} | {to_fast:.2} |"
        );
    }
    Ok(())
}

/// Writes the plan and the journal into a folder.
pub fn write(case: &Case, folder: &Path) -> io::Result<()> {
    fs::create_dir_all(folder)?;
    fs::write(folder.join("plan.bin"), &case.plan)?;
    fs::write(folder.join("journal.bin"), &case.journal)
}

/// The medians of the programs, in microseconds.
fn times(rounds: &mut Rounds, case: &Case, programs: &[PathBuf; 3]) -> io::Result<[f64; 3]> {
    let folder = std::env::temp_dir().join(format!("bench-{}", std::process::id()));
    write(case, &folder)?;
    let text = output(&programs[0], &folder)?;
    for program in &programs[1..] {
        if output(program, &folder)? != text {
            let differ = "the programs print different texts";
            return Err(io::Error::new(io::ErrorKind::Other, differ));
        }
    }
    let mut failed = Ok(());
    let medians = rounds.medians(ROUNDS, |number| {
        time(&programs[number], &folder).unwrap_or_else(|error| {
            failed = Err(error);
            0.0
        })
    });
    fs::remove_dir_all(&folder)?;
    failed.map(|()| medians)
}

fn command(program: &Path, folder: &Path) -> io::Result<Command> {
    let mut command = Command::new(program);
    command.current_dir(folder);
    command.stdin(File::open(folder.join("journal.bin"))?);
    Ok(command)
}

fn output(program: &Path, folder: &Path) -> io::Result<Vec<u8>> {
    Ok(command(program, folder)?.output()?.stdout)
}

fn time(program: &Path, folder: &Path) -> io::Result<f64> {
    let mut command = command(program, folder)?;
    command.stdout(Stdio::null());
    let start = Instant::now();
    command.status()?;
    Ok(start.elapsed().as_nanos() as f64 / 1000.0)
}
