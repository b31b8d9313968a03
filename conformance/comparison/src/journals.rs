//! A journal through the proved calls at either limit, its text printed here, and
//! through the proved program `unwind`, whose limit is the main one.

use std::fs;
use std::io::{self, Write};
use std::path::{Path, PathBuf};
use std::process::{Command, Stdio};

use retraction::raw;
use retraction::{Entry, Moved, Refusal};
use second::journal::{Record, Records, MAX_BYTES};
use second::limit::Limit;
use second::plan::MAX_TRACKS;
use testing::generate::journals::Case;

/// Who runs a journal.
pub enum Runner {
    /// The calls of the library, one after the other.
    Calls,
    /// A program, in a folder that has the plan.
    Program { path: PathBuf, folder: PathBuf },
}

impl Runner {
    /// A program `unwind`, to be run in a folder of its own.
    pub fn program(path: &Path, folder: &Path) -> io::Result<Runner> {
        fs::create_dir_all(folder)?;
        Ok(Runner::Program {
            path: fs::canonicalize(path)?,
            folder: folder.to_path_buf(),
        })
    }

    pub fn name(&self) -> &'static str {
        match self {
            Runner::Calls => "proved calls",
            Runner::Program { .. } => "proved program",
        }
    }

    /// Whether it can be had at that limit: the program has one of its own.
    pub fn takes(&self, limit: Limit) -> bool {
        matches!(self, Runner::Calls) || limit == Limit::MAIN
    }

    /// What it prints.
    pub fn run(&self, limit: Limit, case: &Case) -> io::Result<Vec<u8>> {
        match self {
            Runner::Calls => Ok(by_calls(limit, case)),
            Runner::Program { path, folder } => by_program(path, folder, case),
        }
    }
}

fn by_program(path: &Path, folder: &Path, case: &Case) -> io::Result<Vec<u8>> {
    fs::write(folder.join("plan.bin"), &case.plan)?;
    let mut child = Command::new(path)
        .current_dir(folder)
        .stdin(Stdio::piped())
        .stdout(Stdio::piped())
        .spawn()?;
    let mut journal = child.stdin.take().ok_or(io::ErrorKind::BrokenPipe)?;
    // The program reads one byte more than a journal may have, and may end there.
    match journal.write_all(&case.journal) {
        Err(error) if error.kind() != io::ErrorKind::BrokenPipe => return Err(error),
        _ => drop(journal),
    }
    Ok(child.wait_with_output()?.stdout)
}

/// The options of the library's calls at a limit.
fn options_at(limit: Limit) -> u32 {
    match limit {
        Limit::READING_ROOM => retraction::Limit::ReadingRoom.options(),
        _ => retraction::Limit::Main.options(),
    }
}

/// A plan and the options that all calls of a journal have.
#[derive(Clone, Copy)]
struct Desk<'a> {
    plan: &'a [u8],
    options: u32,
}

/// The text of a journal run by the calls.
fn by_calls(limit: Limit, case: &Case) -> Vec<u8> {
    if case.plan.len() > MAX_BYTES || case.journal.len() > MAX_BYTES {
        return b"R 1\n".to_vec();
    }
    // As many as the largest plan's ledger has.
    let mut words = vec![0xA5A5; limit.track_start(MAX_TRACKS)];
    let desk = Desk {
        plan: &case.plan,
        options: options_at(limit),
    };
    match raw::begin(desk.plan, &mut words, desk.options) {
        Err(refusal) => format!("{}\n", refusal_line(refusal)).into_bytes(),
        Ok(()) => after_begin(desk, &case.journal, &mut words).into_bytes(),
    }
}

fn after_begin(desk: Desk, journal: &[u8], words: &mut [u16]) -> String {
    let mut text = counts(desk.plan);
    let mut firings = 0;
    for record in Records::new(journal) {
        let line = match record {
            Ok(record) => record_line(desk, words, record).unwrap_or_else(refusal_line),
            Err(_) => refusal_line(Refusal::BrokenRecord),
        };
        firings += u32::from(line.starts_with('F'));
        text.push_str(&line);
        text.push('\n');
    }
    text + &format!("H {} {firings}\n", held(desk, words))
}

fn refusal_line(refusal: Refusal) -> String {
    format!("R {}", refusal.number())
}

fn counts(plan: &[u8]) -> String {
    match raw::read(plan) {
        Ok(counts) => {
            let (tracks, states) = (counts.tracks, counts.states);
            format!("PLAN {tracks} {states} {}\n", counts.transitions)
        }
        Err(refusal) => format!("begun, but {}\n", refusal_line(refusal)),
    }
}

fn record_line(desk: Desk, words: &mut [u16], record: Record) -> Result<String, Refusal> {
    let Desk { plan, options } = desk;
    Ok(match record {
        Record::Event(event, day, society) => {
            let Moved { moved, closed } = raw::event(plan, words, event, day, society, options)?;
            format!("E {event} {moved} {closed}")
        }
        Record::Signal(society) => format!("S {}", raw::signal(plan, words, society, options)?),
        Record::Fire(track, society) => firing_line(desk, words, track, society)?,
        Record::FireLowest(society) => lowest_line(desk, words, society)?,
    })
}

/// The number of a refusal for want of a right.
const NO_RIGHT: u16 = 28;

/// The first ready track that is not refused for want of the right; where there
/// is none, a track that no plan has.
fn lowest_line(desk: Desk, words: &mut [u16], society: u16) -> Result<String, Refusal> {
    let ready = raw::ready(desk.plan, words, desk.options)?;
    let ready = (0..MAX_TRACKS as u16).filter(|track| ready >> track & 1 == 1);
    for track in ready {
        match firing_line(desk, words, track, society) {
            Err(refusal) if refusal.number() == NO_RIGHT => {}
            line => return line,
        }
    }
    firing_line(desk, words, MAX_TRACKS as u16, society)
}

fn firing_line(desk: Desk, words: &mut [u16], track: u16, society: u16) -> Result<String, Refusal> {
    let Entry { code, deviation } = raw::fire(desk.plan, words, track, society, desk.options)?;
    let deviation = deviation.map_or("-".to_string(), |state| state.to_string());
    Ok(format!("F {track} {code} {deviation}"))
}

/// The entries that all tracks hold.
fn held(desk: Desk, words: &[u16]) -> usize {
    let tracks = 0..MAX_TRACKS as u16;
    let counts = tracks.map(|track| raw::entries(desk.plan, words, track, desk.options).len() / 2);
    counts.sum()
}
