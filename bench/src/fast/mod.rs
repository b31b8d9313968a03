//! The paper's calls, written for speed: no heap, one visit to each record of
//! the plan and to each word of the ledger, the plan's sum in one sweep over
//! its bytes, sets of tracks as bits, transitions in a table of places by source
//! and event, which both number 15 and an event look up, and pairs of society and
//! root in another, which number 27 looks up. The answers
//! and every word of the ledger are the second program's, as a test holds them
//! to be.
//!
//! - [`plan`]: the plan reader, refusals 2 to 16, 25 and 27; whose tracks a
//!   society may strike.
//! - [`ledger`]: the leading words, whether the tracks' words are sound, and
//!   the tracks as sets.
//! - [`limit`]: how many entries a track can hold, compiled into each call.
//! - [`days`]: days as dates, and dates as days.
//! - [`steps`]: what the calls do, on an accepted plan and a sound ledger.
//! - [`paths`]: how many entries a plan can ask for, refusal 29.
//! - [`run`]: the program `unwind` as a function of bytes.

pub mod days;
pub mod ledger;
pub mod limit;
pub mod paths;
pub mod plan;
pub mod run;
pub mod steps;

use days::FIRST_DAY;
use ledger::{Sets, LEADING_WORDS, PAIRS, PLAN_WORDS};
use limit::Limit;
use paths::Paths;
use plan::{Plan, NONE};
use steps::Given;

/// The paper's number of a refusal.
#[derive(Clone, Copy, Debug, PartialEq, Eq)]
pub struct Refused(pub u16);

/// Event's figures: tracks moved, scopes closed.
#[derive(Clone, Copy, Debug, PartialEq, Eq)]
pub struct Moved {
    pub moved: u16,
    pub closed: u16,
}

/// A retraction code and its deviation state.
#[derive(Clone, Copy, Debug, PartialEq, Eq)]
pub struct Entry {
    pub code: u16,
    pub deviation: u16,
}

/// Begin overwrites the ledger, its leading words included.
pub fn begin<L: Limit>(bytes: &[u8], words: &mut [u16]) -> Result<(), Refused> {
    let mut plan = Plan::unread();
    accept::<L>(&mut plan, bytes, words)?;
    words[..PLAN_WORDS].copy_from_slice(&ledger::plan_words(bytes));
    ledger::set_day(words, FIRST_DAY);
    steps::begin::<L>(&plan, &mut words[LEADING_WORDS..]);
    Ok(())
}

/// A society's event on a day: tracks moved, scopes closed.
pub fn event<L: Limit>(
    bytes: &[u8],
    words: &mut [u16],
    event: u16,
    day: i32,
    society: u16,
) -> Result<Moved, Refused> {
    let mut plan = Plan::unread();
    let mut sets = check::<L>(&mut plan, bytes, words)?;
    let (leading, tracks) = words.split_at_mut(LEADING_WORDS);
    let given = Given {
        event,
        day,
        society,
    };
    steps::event::<L>(&plan, leading, tracks, &mut sets, given)
}

/// A society's signal: tracks turned.
pub fn signal<L: Limit>(bytes: &[u8], words: &mut [u16], society: u16) -> Result<u16, Refused> {
    let mut plan = Plan::unread();
    let mut sets = check::<L>(&mut plan, bytes, words)?;
    steps::signal::<L>(&plan, &mut words[LEADING_WORDS..], &mut sets, society)
}

/// A society fires a named track: code and deviation.
pub fn fire<L: Limit>(
    bytes: &[u8],
    words: &mut [u16],
    track: u16,
    society: u16,
) -> Result<Entry, Refused> {
    let mut plan = Plan::unread();
    let mut sets = check::<L>(&mut plan, bytes, words)?;
    let tracks = &mut words[LEADING_WORDS..];
    steps::fire::<L>(&plan, tracks, &mut sets, track, society)
}

/// Ready: bit n set exactly if track n may be fired.
pub fn ready<L: Limit>(bytes: &[u8], words: &[u16]) -> Result<u32, Refused> {
    let sets = check::<L>(&mut Plan::unread(), bytes, words)?;
    Ok(sets.ready())
}

/// Entries: the part of the ledger that holds one track's pairs, those held
/// and no unused ones; the empty part on refusal.
pub fn entries<'a, L: Limit>(bytes: &[u8], words: &'a [u16], track: u16) -> &'a [u16] {
    let mut plan = Plan::unread();
    let track = usize::from(track);
    if check::<L>(&mut plan, bytes, words).is_err() || track >= plan.tracks {
        return &[];
    }
    let own = &words[LEADING_WORDS + track * L::TRACK_WORDS..][..L::TRACK_WORDS];
    &own[PAIRS..][..2 * usize::from(own[2])]
}

/// Largest: the most entries along any path of a track, and the length of such
/// a path; 0 and 0 for a track that does not exist.
pub fn largest(bytes: &[u8], track: u16) -> Result<(u16, u16), Refused> {
    let mut plan = Plan::unread();
    plan.read(bytes)?;
    let paths = Paths::of(&plan)?;
    if usize::from(track) >= plan.tracks {
        return Ok((0, 0));
    }
    let length = paths.shown(&plan, track).count();
    Ok((paths.most(&plan, track), length as u16))
}

/// Largest step: the transition at an index of that path; `NONE` beyond it, and
/// for a track that does not exist.
pub fn largest_step(bytes: &[u8], track: u16, index: u16) -> Result<u16, Refused> {
    let mut plan = Plan::unread();
    plan.read(bytes)?;
    let paths = Paths::of(&plan)?;
    if usize::from(track) >= plan.tracks {
        return Ok(NONE);
    }
    let step = paths.shown(&plan, track).nth(usize::from(index));
    Ok(step.unwrap_or(NONE))
}

/// 2 to 16, 25, 27 and 17: an accepted plan, and enough words for it.
#[inline(always)]
fn accept<'a, L: Limit>(
    plan: &mut Plan<'a>,
    bytes: &'a [u8],
    words: &[u16],
) -> Result<(), Refused> {
    plan.read(bytes)?;
    match words.len() < LEADING_WORDS + plan.tracks * L::TRACK_WORDS {
        true => Err(Refused(17)),
        false => Ok(()),
    }
}

/// 2 to 16, 25, 27, 17, 24 and 18: an accepted plan and its own and sound
/// ledger, whose sets are the answer.
#[inline(always)]
fn check<'a, L: Limit>(
    plan: &mut Plan<'a>,
    bytes: &'a [u8],
    words: &[u16],
) -> Result<Sets, Refused> {
    accept::<L>(plan, bytes, words)?;
    let (leading, tracks) = words.split_at(LEADING_WORDS);
    if leading[..PLAN_WORDS] != ledger::plan_words(bytes) {
        return Err(Refused(24));
    }
    if !days::in_range(ledger::day(leading)) {
        return Err(Refused(18));
    }
    Sets::of::<L>(plan, tracks).ok_or(Refused(18))
}
