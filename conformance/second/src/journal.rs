//! The program `unwind` as a function of plan bytes and journal bytes.

use std::io::Write;

use crate::ledger::{Entry, Ledger};
use crate::limit::Limit;
use crate::plan::{self, Plan, MAX_TRACKS, NONE};
use crate::record::{self, Header};
use crate::refusal::{demand, Refusal};
use crate::rules::{self, Moved};

/// The most bytes a plan file or a journal may have.
pub const MAX_BYTES: usize = 32_768;

/// Record kinds of a journal. Kind 16, an event without a day, is withdrawn.
pub const SIGNAL: u16 = 17;
pub const FIRE: u16 = 18;
pub const FIRE_LOWEST: u16 = 19;
pub const EVENT: u16 = 20;

/// A journal record. Its last field is the society whose call it is.
#[derive(Clone, Copy, Debug, PartialEq, Eq)]
pub enum Record {
    /// An event, its day and the society.
    Event(u16, i32, u16),
    Signal(u16),
    /// A track and the society.
    Fire(u16, u16),
    FireLowest(u16),
}

impl Record {
    /// Appends the record to a journal.
    pub fn encode(self, out: &mut Vec<u8>) {
        match self {
            Record::Event(event, day, society) => {
                let [low, high] = record::words_of(day);
                record::put(out, EVENT, &[event, low, high, society])
            }
            Record::Signal(society) => record::put(out, SIGNAL, &[society]),
            Record::Fire(track, society) => record::put(out, FIRE, &[track, society]),
            Record::FireLowest(society) => record::put(out, FIRE_LOWEST, &[society]),
        }
    }

    /// The record at the front of `bytes`, and its length; 23 if broken.
    fn read(bytes: &[u8]) -> Result<(Record, usize), Refusal> {
        let header = Header::read(bytes).ok_or(Refusal::BrokenRecord)?;
        let length = kind_length(header.kind).ok_or(Refusal::BrokenRecord)?;
        let whole = header.length == length && usize::from(length) <= bytes.len();
        demand(whole, Refusal::BrokenRecord)?;
        let field = |n| record::field(bytes, n);
        let record = match header.kind {
            EVENT => Record::Event(field(0), record::signed(bytes, 1), field(3)),
            SIGNAL => Record::Signal(field(0)),
            FIRE => Record::Fire(field(0), field(1)),
            _ => Record::FireLowest(field(0)),
        };
        Ok((record, usize::from(length)))
    }
}

/// The length of each kind of journal record; `None` for an unknown kind.
pub fn kind_length(kind: u16) -> Option<u16> {
    match kind {
        EVENT => Some(12),
        FIRE => Some(8),
        SIGNAL | FIRE_LOWEST => Some(6),
        _ => None,
    }
}

/// The records of a journal in order; a broken one ends the reading.
pub struct Records<'a> {
    rest: &'a [u8],
}

impl<'a> Records<'a> {
    pub fn new(journal: &'a [u8]) -> Self {
        Records { rest: journal }
    }
}

impl Iterator for Records<'_> {
    type Item = Result<Record, Refusal>;

    fn next(&mut self) -> Option<Self::Item> {
        if self.rest.is_empty() {
            return None;
        }
        let read = Record::read(self.rest);
        self.rest = match read {
            Ok((_, length)) => &self.rest[length..],
            Err(_) => &[],
        };
        Some(read.map(|(record, _)| record))
    }
}

/// What a journal record did.
#[derive(Clone, Copy, Debug, PartialEq, Eq)]
pub enum Outcome {
    Event(u16, Moved),
    Signal(u16),
    Fire(u16, Entry),
    Refused(Refusal),
}

/// Does one record on an accepted plan and a sound ledger.
pub fn perform(plan: &Plan, ledger: &mut Ledger, record: Record) -> Outcome {
    let fired = |track, done: Result<Entry, Refusal>| done.map(|e| Outcome::Fire(track, e));
    let done = match record {
        Record::Event(event, day, society) => {
            rules::event(plan, ledger, event, day, society).map(|m| Outcome::Event(event, m))
        }
        Record::Signal(society) => rules::signal(plan, ledger, society).map(Outcome::Signal),
        Record::Fire(track, society) => fired(track, rules::fire(plan, ledger, track, society)),
        Record::FireLowest(society) => {
            let track = lowest_ready(plan, ledger, society);
            fired(track, rules::fire(plan, ledger, track, society))
        }
    };
    done.unwrap_or_else(Outcome::Refused)
}

/// The lowest ready track that the society may fire; with none, a track that
/// no plan has, so that the firing is refused as 20 or 22.
pub fn lowest_ready(plan: &Plan, ledger: &Ledger, society: u16) -> u16 {
    rules::lowest_ready(plan, ledger, society).unwrap_or(MAX_TRACKS) as u16
}

/// The whole output of `unwind`, whose limit is the main program's.
pub fn unwind(plan: &[u8], journal: &[u8]) -> Vec<u8> {
    unwind_at(Limit::MAIN, plan, journal)
}

/// What the same journal's calls would print at another limit.
pub fn unwind_at(limit: Limit, plan: &[u8], journal: &[u8]) -> Vec<u8> {
    let mut text = Vec::new();
    match open(plan, journal) {
        Ok(plan) => run(limit, &plan, journal, &mut text),
        Err(refusal) => print_refusal(&mut text, refusal),
    }
    text
}

/// 1 to 16, 25 and 27: both files short enough, and an accepted plan.
pub fn open(plan: &[u8], journal: &[u8]) -> Result<Plan, Refusal> {
    let fits = plan.len() <= MAX_BYTES && journal.len() <= MAX_BYTES;
    demand(fits, Refusal::TooLong)?;
    plan::read(plan)
}

/// Begins, then does the records in order.
fn run(limit: Limit, plan: &Plan, journal: &[u8], text: &mut Vec<u8>) {
    let mut ledger = rules::begin(limit, plan);
    let mut firings = 0;
    print_plan(text, plan);
    for record in Records::new(journal) {
        let outcome = match record {
            Ok(record) => perform(plan, &mut ledger, record),
            Err(refusal) => Outcome::Refused(refusal),
        };
        firings += u32::from(matches!(outcome, Outcome::Fire(..)));
        print_outcome(text, outcome);
    }
    print_line(text, format_args!("H {} {}", ledger.total_held(), firings));
}

fn print_plan(text: &mut Vec<u8>, plan: &Plan) {
    let (tracks, states) = (plan.track_count(), plan.state_count());
    let transitions = plan.transition_count();
    print_line(text, format_args!("PLAN {tracks} {states} {transitions}"));
}

fn print_outcome(text: &mut Vec<u8>, outcome: Outcome) {
    match outcome {
        Outcome::Event(event, m) => {
            print_line(text, format_args!("E {event} {} {}", m.moved, m.closed))
        }
        Outcome::Signal(turned) => print_line(text, format_args!("S {turned}")),
        Outcome::Fire(track, entry) => print_firing(text, track, entry),
        Outcome::Refused(refusal) => print_refusal(text, refusal),
    }
}

fn print_firing(text: &mut Vec<u8>, track: u16, entry: Entry) {
    let Entry { code, deviation } = entry;
    if deviation == NONE {
        print_line(text, format_args!("F {track} {code} -"));
    } else {
        print_line(text, format_args!("F {track} {code} {deviation}"));
    }
}

fn print_refusal(text: &mut Vec<u8>, refusal: Refusal) {
    print_line(text, format_args!("R {}", refusal.number()));
}

/// Appends one line; writing to memory cannot fail.
fn print_line(text: &mut Vec<u8>, line: std::fmt::Arguments) {
    writeln!(text, "{line}").expect("writing to memory");
}
