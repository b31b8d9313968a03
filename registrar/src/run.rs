//! Journals run by the proved calls. Nothing here decides: each call is made on
//! the ledger, and its answer kept with how the tracks stood before and after.

use crate::journal::{Broken, Call, MOST_BYTES};
use crate::standing::{self, Standing};
use retraction::{Entry, Ledger, Limit, Moved, Plan, Refusal};

/// What a call was answered.
#[derive(Clone, Copy, Debug, PartialEq, Eq)]
pub enum Answer {
    Moved(Moved),
    Turned(u16),
    Fired { track: u16, entry: Entry },
    Refused(Refusal),
}

/// A call with its answer, and the tracks before and after it.
#[derive(Clone, Debug, PartialEq, Eq)]
pub struct Done {
    pub call: Call,
    pub answer: Answer,
    pub before: Vec<Option<Standing>>,
    pub after: Vec<Option<Standing>>,
    /// The tracks that may be fired after it, whoever has the right to.
    pub ready: Vec<u16>,
    /// Whether the ledger is over after it.
    pub over: bool,
}

impl Done {
    /// The line that `unwind` prints for it.
    #[must_use]
    pub fn line(&self) -> String {
        match (self.call, self.answer) {
            (Call::Event { event, .. }, Answer::Moved(Moved { moved, closed })) => {
                format!("E {event} {moved} {closed}")
            }
            (_, Answer::Moved(_)) => unreachable!("only an event moves"),
            (_, Answer::Turned(turned)) => format!("S {turned}"),
            (_, Answer::Fired { track, entry }) => match entry.deviation {
                Some(state) => format!("F {track} {} {state}", entry.code),
                None => format!("F {track} {} -", entry.code),
            },
            (_, Answer::Refused(refusal)) => format!("R {}", refusal.number()),
        }
    }
}

/// Makes a call on a ledger.
pub fn make(ledger: &mut Ledger<'_>, call: Call) -> Done {
    let before = standing::of(ledger);
    let answer = answer(ledger, call).unwrap_or_else(Answer::Refused);
    Done {
        call,
        answer,
        before,
        after: standing::of(ledger),
        ready: ledger.ready().collect(),
        over: ledger.is_over(),
    }
}

fn answer(ledger: &mut Ledger<'_>, call: Call) -> Result<Answer, Refusal> {
    let fired = |track, entry| Answer::Fired { track, entry };
    match call {
        Call::Event {
            event,
            day,
            society,
        } => ledger.event(event, day, society).map(Answer::Moved),
        Call::Signal { society } => ledger.signal(society).map(Answer::Turned),
        Call::Fire { track, society } => {
            let entry = ledger.fire(track, society)?;
            Ok(fired(track, entry))
        }
        Call::FireLowest { society } => {
            let (track, entry) = fire_lowest(ledger, society)?;
            Ok(fired(track, entry))
        }
    }
}

/// A track number that no plan has: firing it is refused as 20 or 22, whoever
/// asks.
const NO_TRACK: u16 = u16::MAX;

/// Fires the lowest ready track that the society has the fire right for. A track
/// that it lacks the right for is refused as 28, and the next one tried; with
/// none left it is the refusal of a track that does not exist.
fn fire_lowest(ledger: &mut Ledger<'_>, society: u16) -> Result<(u16, Entry), Refusal> {
    let ready: Vec<u16> = ledger.ready().collect();
    for track in ready {
        match ledger.fire(track, society) {
            Err(Refusal::NoRight) => {}
            answer => return answer.map(|entry| (track, entry)),
        }
    }
    ledger
        .fire(NO_TRACK, society)
        .map(|entry| (NO_TRACK, entry))
}

/// A journal run from a begin.
#[derive(Clone, Debug, PartialEq, Eq)]
pub struct Run<'plan> {
    /// The tracks after the begin.
    pub begun: Vec<Option<Standing>>,
    pub done: Vec<Done>,
    /// Where the journal is broken, if it is; what comes after is not read.
    pub broken: Option<Broken>,
    pub ledger: Ledger<'plan>,
}

impl<'plan> Run<'plan> {
    /// Runs these calls at a limit, as far as the journal is not broken.
    #[must_use]
    pub fn of(plan: &'plan Plan, limit: Limit, calls: &[Call], broken: Option<Broken>) -> Self {
        let mut ledger = plan.begin(limit);
        let begun = standing::of(&ledger);
        let done = calls.iter().map(|&call| make(&mut ledger, call)).collect();
        Run {
            begun,
            done,
            broken,
            ledger,
        }
    }

    /// How many entries are held at the end, and how many were fired: `unwind`'s
    /// last line.
    #[must_use]
    pub fn tally(&self) -> (usize, usize) {
        let fired = |done: &&Done| matches!(done.answer, Answer::Fired { .. });
        let fired = self.done.iter().filter(fired).count();
        (standing::held(&standing::of(&self.ledger)), fired)
    }

    /// All lines that `unwind` prints for this plan and journal, if it kept to this
    /// limit. The program itself always keeps to the main one.
    #[must_use]
    pub fn lines(&self) -> Vec<String> {
        let counts = self.ledger.plan().counts();
        let plan = (counts.tracks, counts.states, counts.transitions);
        let mut lines = vec![format!("PLAN {} {} {}", plan.0, plan.1, plan.2)];
        lines.extend(self.done.iter().map(Done::line));
        if self.broken.is_some() {
            lines.push(format!("R {}", Refusal::BrokenRecord.number()));
        }
        let (held, fired) = self.tally();
        lines.push(format!("H {held} {fired}"));
        lines
    }
}

/// The refusal of a file for its length alone.
pub fn fits(bytes: &[u8]) -> Result<(), Refusal> {
    if bytes.len() > MOST_BYTES {
        return Err(Refusal::TooLong);
    }
    Ok(())
}
