//! The program `unwind` as a function of plan bytes and journal bytes. The
//! plan is read once, and the sets go on from record to record. The ledger is
//! its own, from a begin on and at the main program's limit, so that 17, 24 and
//! 18 never apply.

use super::days::FIRST_DAY;
use super::ledger::{plan_words, set_day, Sets, LEADING_WORDS, PLAN_WORDS};
use super::limit::{Limit, Main};
use super::plan::{self, Plan, NONE};
use super::steps::{self, Given};
use super::Refused;

/// The most bytes a plan file or a journal may have.
pub const MAX_BYTES: usize = 32_768;

/// Record kinds of a journal.
const SIGNAL: u16 = 17;
const FIRE: u16 = 18;
const FIRE_LOWEST: u16 = 19;
const EVENT: u16 = 20;

/// The whole output of `unwind`.
pub fn unwind(plan: &[u8], journal: &[u8]) -> Vec<u8> {
    let mut text = Text(Vec::with_capacity(2 * MAX_BYTES));
    let mut read = Plan::unread();
    let accepted = match plan.len().max(journal.len()) <= MAX_BYTES {
        true => read.read(plan),
        false => Err(Refused(1)),
    };
    match accepted {
        Ok(()) => run(&read, plan_words(plan), journal, &mut text),
        Err(Refused(number)) => text.line("R", &[number]),
    }
    text.0
}

/// Begins, then does the records in order.
fn run(plan: &Plan, plan_words: [u16; PLAN_WORDS], journal: &[u8], text: &mut Text) {
    let mut ledger = [0; LEADING_WORDS + 32 * Main::TRACK_WORDS];
    let (leading, words) = ledger.split_at_mut(LEADING_WORDS);
    leading[..PLAN_WORDS].copy_from_slice(&plan_words);
    set_day(leading, FIRST_DAY);
    let mut sets = steps::begin::<Main>(plan, words);
    let mut firings = 0;
    let mut rest = journal;
    let [tracks, states, transitions] = [plan.tracks, plan.states, plan.transition_count()];
    text.line("PLAN", &[tracks as u16, states as u16, transitions as u16]);
    while !rest.is_empty() {
        let done = next(&mut rest).and_then(|record| match record {
            Record::Event(given) => steps::event::<Main>(plan, leading, words, &mut sets, given)
                .map(|figures| text.line("E", &[given.event, figures.moved, figures.closed])),
            Record::Signal(society) => steps::signal::<Main>(plan, words, &mut sets, society)
                .map(|turned| text.line("S", &[turned])),
            Record::Fire(track, society) => {
                let track = track.unwrap_or_else(|| lowest_ready(plan, &sets, society));
                let entry = steps::fire::<Main>(plan, words, &mut sets, track, society)?;
                firings += 1;
                text.firing(track, entry.code, entry.deviation);
                Ok(())
            }
        });
        if let Err(Refused(number)) = done {
            text.line("R", &[number]);
        }
    }
    let held = words
        .chunks_exact(Main::TRACK_WORDS)
        .map(|own| own[2])
        .sum();
    text.line("H", &[held, firings]);
}

/// The lowest ready track that the society may fire; with none, one that no
/// plan has.
fn lowest_ready(plan: &Plan, sets: &Sets, society: u16) -> u16 {
    let ready = sets.ready() & plan.permitted(society, plan::FIRE);
    ready.trailing_zeros() as u16
}

/// A journal record, its society last.
enum Record {
    Event(Given),
    Signal(u16),
    /// A track, or the lowest that may be fired.
    Fire(Option<u16>, u16),
}

/// Takes a record from the front. A broken one, 23, ends the reading.
fn next(rest: &mut &[u8]) -> Result<Record, Refused> {
    let bytes = *rest;
    let word = |at: usize| match bytes.get(at..at + 2) {
        Some(bytes) => u16::from_le_bytes([bytes[0], bytes[1]]),
        None => 0,
    };
    *rest = &[];
    let kind = word(2);
    let length = match kind {
        EVENT => 12,
        FIRE => 8,
        SIGNAL | FIRE_LOWEST => 6,
        _ => return Err(Refused(23)),
    };
    if usize::from(word(0)) != length || bytes.len() < length {
        return Err(Refused(23));
    }
    *rest = &bytes[length..];
    let society = word(length - 2);
    Ok(match kind {
        EVENT => Record::Event(Given {
            event: word(4),
            day: (u32::from(word(8)) << 16 | u32::from(word(6))) as i32,
            society,
        }),
        SIGNAL => Record::Signal(society),
        FIRE => Record::Fire(Some(word(4)), society),
        _ => Record::Fire(None, society),
    })
}

/// Lines of text.
struct Text(Vec<u8>);

impl Text {
    fn line(&mut self, name: &str, figures: &[u16]) {
        self.0.extend_from_slice(name.as_bytes());
        for &figure in figures {
            self.figure(figure);
        }
        self.0.push(b'\n');
    }

    fn firing(&mut self, track: u16, code: u16, deviation: u16) {
        match deviation {
            NONE => {
                self.0.push(b'F');
                self.figure(track);
                self.figure(code);
                self.0.extend_from_slice(b" -\n");
            }
            _ => self.line("F", &[track, code, deviation]),
        }
    }

    /// A space and a number.
    fn figure(&mut self, mut number: u16) {
        let mut digits = [b' '; 6];
        let mut at = digits.len();
        loop {
            at -= 1;
            digits[at] = b'0' + (number % 10) as u8;
            number /= 10;
            if number == 0 {
                break;
            }
        }
        self.0.extend_from_slice(&digits[at - 1..]);
    }
}
