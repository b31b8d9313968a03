//! A run told: beside each line that `unwind` prints, what it means. All of it
//! is read from the answers and from how the tracks stood before and after.

mod event;
mod firing;
mod refused;
mod signal;

use crate::day;
use crate::draft::Draft;
use crate::journal::Call;
use crate::limit;
use crate::look::{self, Standings};
use crate::phrase;
use crate::run::{Answer, Done, Run};
use crate::standing::{self, Standing};
use retraction::{Entry, Limit, Refusal, FIRST_DAY};

pub(crate) use signal::why_not_exact;

/// A line of `unwind`, with what it means.
#[derive(Clone, Debug, PartialEq, Eq)]
pub struct Told {
    /// The line of the journal's text, counted from 1, if it has one.
    pub line: Option<usize>,
    /// What `unwind` prints.
    pub printed: String,
    pub meaning: String,
}

/// Every line of a run; `lines` has the journal's text line of each call.
#[must_use]
pub fn tell(draft: &Draft, run: &Run<'_>, lines: &[usize]) -> Vec<Told> {
    let mut meanings = vec![begun(draft, run)];
    let mut last = FIRST_DAY;
    for done in &run.done {
        meanings.push(Scene::of(draft, run, done).meaning(last));
        last = accepted_day(done).unwrap_or(last);
    }
    if let Some(broken) = &run.broken {
        meanings.push(format!(
            "The journal is broken at record {}, byte {}: {}. What follows is not read.",
            broken.record, broken.byte, broken.what
        ));
    }
    meanings.push(ended(draft, run));
    let line = |place: usize| lines.get(place.checked_sub(1)?).copied();
    let printed = run.lines().into_iter().zip(meanings).enumerate();
    let told = printed.map(|(place, (printed, meaning))| Told {
        line: line(place).filter(|_| place <= run.done.len()),
        printed,
        meaning,
    });
    told.collect()
}

/// One call of a run, counted from 0.
#[must_use]
pub fn told(draft: &Draft, run: &Run<'_>, call: usize) -> Told {
    let done = &run.done[call];
    Told {
        line: None,
        printed: done.line(),
        meaning: Scene::of(draft, run, done).meaning(last_day(run, call)),
    }
}

/// The last accepted day where a call was refused: behind the last call the ledger
/// has it, and before that the events.
fn last_day(run: &Run<'_>, call: usize) -> i32 {
    if call + 1 == run.done.len() {
        return run.ledger.day();
    }
    let before = run.done[..call].iter().rev();
    before.filter_map(accepted_day).next().unwrap_or(FIRST_DAY)
}

/// The one line of a plan or a journal that is refused as a whole.
#[must_use]
pub fn refused(refusal: Refusal) -> Told {
    Told {
        line: None,
        printed: format!("R {}", refusal.number()),
        meaning: format!("Refused as {refusal}. Nothing is run."),
    }
}

/// The longest line that `unwind` prints of any plan, `PLAN 32 128 256`.
const PRINTED: usize = 15;

/// All lines in columns: what `unwind` prints, which is padded with blanks to 15
/// characters; two blanks; the journal's line, if any has one; and the meaning.
#[must_use]
pub fn text(told: &[Told]) -> String {
    let shown = |line: Option<usize>| line.map_or_else(String::new, |line| line.to_string());
    let width = told.iter().map(|one| shown(one.line).len()).max();
    let width = width.unwrap_or(0);
    let gap = if width > 0 { "  " } else { "" };
    let row = |one: &Told| {
        let line = shown(one.line);
        format!(
            "{:PRINTED$}  {line:>width$}{gap}{}\n",
            one.printed, one.meaning
        )
    };
    told.iter().map(row).collect()
}

/// The day of an event that was accepted.
fn accepted_day(done: &Done) -> Option<i32> {
    match (done.call, done.answer) {
        (Call::Event { day, .. }, Answer::Moved(_)) => Some(day),
        _ => None,
    }
}

/// A call under its plan.
struct Scene<'a> {
    draft: &'a Draft,
    done: &'a Done,
    /// The limit that the call was made at.
    limit: Limit,
}

impl<'a> Scene<'a> {
    fn of(draft: &'a Draft, run: &Run<'_>, done: &'a Done) -> Scene<'a> {
        let limit = run.ledger.limit();
        Scene { draft, done, limit }
    }

    /// What the call did, or why it was refused; the last day that was accepted
    /// before it is for the refusal of an earlier one.
    fn meaning(&self, last_day: i32) -> String {
        match self.done.answer {
            Answer::Moved(figures) => event::told(self, figures),
            Answer::Turned(turned) => signal::told(self, turned),
            Answer::Fired { track, entry } => firing::told(self, track, entry),
            Answer::Refused(refusal) => refused::told(self, refusal, last_day),
        }
    }

    fn before(&self, track: u16) -> Option<&Standing> {
        self.done.before.get(usize::from(track))?.as_ref()
    }

    fn after(&self, track: u16) -> Option<&Standing> {
        self.done.after.get(usize::from(track))?.as_ref()
    }

    /// All track numbers.
    fn tracks(&self) -> std::ops::Range<u16> {
        0..self.done.before.len() as u16
    }

    fn society(&self) -> String {
        phrase::society(self.draft, self.done.call.society())
    }

    /// By whom, where the plan names several societies.
    fn by(&self) -> String {
        match phrase::several_societies(self.draft) {
            true => format!(", by {}", self.society()),
            false => String::new(),
        }
    }

    /// What was asked for, in words; the day where the plan has windows.
    fn asked(&self) -> String {
        let by = self.by();
        match self.done.call {
            Call::Event { event, day, .. } => {
                let windows = !self.draft.records.windows.is_empty();
                let on = if windows {
                    format!(", {}", day::text(day))
                } else {
                    String::new()
                };
                format!("{}{on}{by}", phrase::event(self.draft, event))
            }
            Call::Signal { .. } => format!(
                "{} withdraws",
                phrase::society_first(self.draft, self.done.call.society())
            ),
            Call::Fire { track, .. } => format!("Take back {}{by}", self.draft.track(track)),
            Call::FireLowest { .. } => format!("Take back next{by}"),
        }
    }

    /// The tracks that woke, each with its state.
    fn started(&self) -> Option<String> {
        let woke = |&t: &u16| self.before(t).is_none() && self.after(t).is_some();
        let woken: Vec<u16> = self.tracks().filter(woke).collect();
        starts(self.draft, &self.done.after, &woken)
    }

    /// That all has ended, and what was dropped with it.
    fn over(&self, dropped: Vec<Entry>) -> Option<String> {
        if !self.done.over {
            return None;
        }
        if dropped.is_empty() {
            return Some("with that all has ended, and nothing was held any more".to_string());
        }
        let dropped = phrase::entries(self.draft, dropped);
        Some(format!(
            "with that all has ended, and these are dropped unfired: {dropped}"
        ))
    }
}

/// The parts of a meaning behind its head.
fn sentence(head: &str, parts: Vec<Option<String>>) -> String {
    let parts: Vec<String> = parts
        .into_iter()
        .flatten()
        .filter(|p| !p.is_empty())
        .collect();
    format!("{head}: {}.", parts.join("; "))
}

/// `a starts in x, b in y`.
fn starts(draft: &Draft, standings: &Standings, tracks: &[u16]) -> Option<String> {
    let place = |&t: &u16| {
        let standing = standings[usize::from(t)].as_ref()?;
        Some((draft.track(t), draft.state(standing.state)))
    };
    let places: Vec<(String, String)> = tracks.iter().filter_map(place).collect();
    let mut said: Vec<String> = Vec::new();
    for (place, (track, state)) in places.iter().enumerate() {
        let verb = if place == 0 { " starts" } else { "" };
        said.push(format!("{track}{verb} in {state}"));
    }
    Some(phrase::row(&said)).filter(|said| !said.is_empty())
}

/// The plan's line.
fn begun(draft: &Draft, run: &Run<'_>) -> String {
    let awake = |&t: &u16| run.begun[usize::from(t)].is_some();
    let awake: Vec<u16> = (0..run.begun.len() as u16).filter(awake).collect();
    let counts = run.ledger.plan().counts();
    let counts = [
        phrase::count(counts.tracks.into(), "track"),
        phrase::count(counts.states.into(), "state"),
        phrase::count(counts.transitions.into(), "step"),
    ];
    let start = starts(draft, &run.begun, &awake).unwrap_or_default();
    let limit = limit::told(run.ledger.limit());
    let limit = limit.map_or_else(String::new, |limit| format!(", {limit}"));
    format!(
        "The plan is taken{limit}: {}; {start}.",
        phrase::row(&counts)
    )
}

/// The last line: what is still held, and how many were fired.
fn ended(draft: &Draft, run: &Run<'_>) -> String {
    let (_, fired) = run.tally();
    let fired = format!("{} went out", phrase::count(fired, "letter"));
    let at_end = standing::of(&run.ledger);
    let held = held(draft, &at_end);
    if run.ledger.is_over() {
        return format!("All has ended; {fired}.");
    }
    if held.is_empty() {
        let all = if look::is_restored(&draft.records, &at_end) {
            "All is taken back"
        } else {
            "Nothing is held"
        };
        return format!("{all}; {fired}.");
    }
    format!("Still held, the newest first: {held}; {fired}.")
}

/// What each track holds, the newest first; empty where nothing is held.
#[must_use]
pub fn held(draft: &Draft, standings: &Standings) -> String {
    let holds = |(t, standing): (usize, &Option<Standing>)| {
        let entries = &standing.as_ref()?.entries;
        let newest_first = entries.iter().rev().copied();
        let entries = phrase::entries(draft, newest_first);
        let entries = Some(entries).filter(|words| !words.is_empty())?;
        Some(format!("{} {entries}", draft.track(t as u16)))
    };
    let holds: Vec<String> = standings.iter().enumerate().filter_map(holds).collect();
    holds.join("; ")
}
