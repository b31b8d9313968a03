//! `vectors SEED HISTORIES SINGLES DAMAGED [TRACKS]`: prints HISTORIES lines
//! `H`, DAMAGED lines `P`, SINGLES lines `L`, HISTORIES lines `U`, HISTORIES
//! lines `L` of conversions, HISTORIES lines `L` of the largest number of entries,
//! HISTORIES lines `W` and HISTORIES lines `O`. TRACKS limits the tracks of the
//! plans but for those of the largest numbers.

use std::io::{self, BufWriter, Write};
use std::process::ExitCode;

use second::plan::MAX_TRACKS;
use testing::generate::rng::Rng;
use testing::vectors;

/// Prints `count` lines, each from its own source of random numbers.
fn print_lines(
    out: &mut impl Write,
    (seed, kind): (u64, u64),
    count: u64,
    line: impl Fn(&mut Rng) -> String,
) -> io::Result<()> {
    for index in 0..count {
        let mut rng = Rng::for_case(seed, kind, index);
        writeln!(out, "{}", line(&mut rng))?;
    }
    Ok(())
}

fn print_all(numbers: &[u64]) -> io::Result<()> {
    let (seed, histories, singles, damaged, tracks) = match *numbers {
        [seed, histories, singles, damaged, tracks] => (seed, histories, singles, damaged, tracks),
        _ => return Err(io::ErrorKind::InvalidInput.into()),
    };
    let most_tracks = tracks as usize;
    let mut out = BufWriter::new(io::stdout().lock());
    print_lines(&mut out, (seed, 11), histories, |r| {
        vectors::history_line(r, most_tracks)
    })?;
    print_lines(&mut out, (seed, 12), damaged, |r| {
        vectors::plan_line(r, most_tracks)
    })?;
    print_lines(&mut out, (seed, 13), singles, |r| {
        vectors::single_line(r, most_tracks)
    })?;
    print_lines(&mut out, (seed, 14), histories, |r| {
        vectors::unwind_line(r, most_tracks)
    })?;
    print_lines(&mut out, (seed, 15), histories, vectors::conversion_line)?;
    print_lines(&mut out, (seed, 16), histories, vectors::small_largest_line)?;
    print_lines(&mut out, (seed, 17), histories, |r| {
        vectors::withdrawal_line(r, most_tracks)
    })?;
    print_lines(&mut out, (seed, 18), histories, |r| {
        vectors::order_line(r, most_tracks)
    })?;
    out.flush()
}

fn main() -> ExitCode {
    let given: Result<Vec<u64>, _> = std::env::args().skip(1).map(|a| a.parse()).collect();
    let mut numbers = given.unwrap_or_default();
    if numbers.len() == 4 {
        numbers.push(MAX_TRACKS as u64);
    }
    match print_all(&numbers) {
        Ok(()) => ExitCode::SUCCESS,
        Err(error) if error.kind() == io::ErrorKind::BrokenPipe => ExitCode::SUCCESS,
        Err(_) => {
            eprintln!("usage: vectors SEED HISTORIES SINGLES DAMAGED [TRACKS]");
            ExitCode::FAILURE
        }
    }
}
