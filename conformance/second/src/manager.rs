//! The six calls, on plan bytes and lent words, each at the limit that its
//! caller chooses. Every call checks 2 to 16, 25, 27, 17, 24 and 18 first, begin 2
//! to 16, 25, 27 and 17. Refused calls change no word. Event, signal and fire are a
//! society's; ready and entries anybody's.
//! Largest is given the plan alone, and checks 2 to 16, 25, 27 and 29. And the
//! two conversions, which are given neither plan nor ledger.

use crate::days::{self, Date};
use crate::ledger::{self, Entry, Ledger, PAIRS};
use crate::limit::Limit;
use crate::paths::{self, Largest};
use crate::plan::{self, Plan};
use crate::refusal::{demand, Refusal};
use crate::rules::{self, Moved};

/// The result with its figures, or a refusal with its number.
#[derive(Clone, Copy, Debug, PartialEq, Eq)]
pub enum Answer<Figures> {
    Done(Figures),
    Refused(Refusal),
}

impl<Figures> From<Result<Figures, Refusal>> for Answer<Figures> {
    fn from(result: Result<Figures, Refusal>) -> Self {
        match result {
            Ok(figures) => Answer::Done(figures),
            Err(refusal) => Answer::Refused(refusal),
        }
    }
}

/// Begin overwrites the ledger, its leading words included.
pub fn begin(limit: Limit, plan: &[u8], words: &mut [u16]) -> Answer<()> {
    let begun = accepted(limit, plan, words).map(|plan| rules::begin(limit, &plan).encode(words));
    begun.into()
}

/// Event on a day: tracks moved, scopes closed.
pub fn event(
    limit: Limit,
    plan: &[u8],
    words: &mut [u16],
    event: u16,
    day: i32,
    society: u16,
) -> Answer<Moved> {
    call(limit, plan, words, |p, l| {
        rules::event(p, l, event, day, society)
    })
}

/// Signal: tracks turned.
pub fn signal(limit: Limit, plan: &[u8], words: &mut [u16], society: u16) -> Answer<u16> {
    call(limit, plan, words, |p, l| rules::signal(p, l, society))
}

/// Fire a named track: code and deviation.
pub fn fire(
    limit: Limit,
    plan: &[u8],
    words: &mut [u16],
    track: u16,
    society: u16,
) -> Answer<Entry> {
    call(limit, plan, words, |p, l| rules::fire(p, l, track, society))
}

/// Ready: bit n set exactly if track n may be fired.
pub fn ready(limit: Limit, plan: &[u8], words: &[u16]) -> Answer<u32> {
    sound(limit, plan, words)
        .map(|(plan, ledger)| rules::ready(&plan, &ledger))
        .into()
}

/// Entries: the part of the ledger that holds one track's pairs, those held
/// and no unused ones; the empty part on refusal.
pub fn entries<'a>(limit: Limit, plan: &[u8], words: &'a [u16], track: u16) -> &'a [u16] {
    let track = usize::from(track);
    match sound(limit, plan, words) {
        Ok((plan, ledger)) if track < plan.track_count() => {
            let held = ledger.tracks[track].held();
            &ledger::track_words(limit, words, track)[PAIRS..][..2 * held]
        }
        _ => &[],
    }
}

/// Largest: the most entries that a track can ask for, and a path with so many.
pub fn largest(plan: &[u8], track: u16) -> Answer<Largest> {
    plan::read(plan)
        .and_then(|plan| paths::largest(&plan, usize::from(track)))
        .into()
}

/// The date of a day.
pub fn date_of_day(day: i32) -> Answer<Date> {
    days::date_of_day(day).into()
}

/// The day of a date.
pub fn day_of_date(date: Date) -> Answer<i32> {
    days::day_of_date(date).into()
}

/// A call that may write: decodes, acts, and writes only if not refused.
fn call<Figures>(
    limit: Limit,
    plan: &[u8],
    words: &mut [u16],
    act: impl FnOnce(&Plan, &mut Ledger) -> Result<Figures, Refusal>,
) -> Answer<Figures> {
    let done = sound(limit, plan, words).and_then(|(plan, mut ledger)| {
        let figures = act(&plan, &mut ledger)?;
        ledger.encode(words);
        Ok(figures)
    });
    done.into()
}

/// 2 to 16, 25, 27 and 17: an accepted plan, and enough words for it at the limit.
fn accepted(limit: Limit, plan: &[u8], words: &[u16]) -> Result<Plan, Refusal> {
    let plan = plan::read(plan)?;
    demand(
        words.len() >= ledger::words_needed(limit, &plan),
        Refusal::FewWords,
    )?;
    Ok(plan)
}

/// 2 to 16, 25, 27, 17, 24 and 18: an accepted plan, and its own and sound ledger.
fn sound(limit: Limit, plan: &[u8], words: &[u16]) -> Result<(Plan, Ledger), Refusal> {
    let plan = accepted(limit, plan, words)?;
    demand(ledger::is_of(&plan, words), Refusal::OtherPlan)?;
    demand(ledger::is_sound(limit, &plan, words), Refusal::Unsound)?;
    let ledger = Ledger::decode(limit, &plan, words);
    Ok((plan, ledger))
}
