//! A refused call: its number, the rule, and why it was so here.

use super::{event, Scene};
use crate::day;
use crate::journal::Call;
use crate::limit;
use crate::look;
use crate::phrase;
use crate::standing::{self, Mode, Standing};
use retraction::{Refusal, FIRST_DAY, LAST_DAY};

/// A call that was refused.
pub(super) fn told(scene: &Scene<'_>, refusal: Refusal, last_day: i32) -> String {
    let why = match refusal {
        Refusal::EventZero => "the event has number 0, and they are numbered from 1".to_string(),
        Refusal::Day => wrong_day(scene, last_day),
        Refusal::Over => "all has ended before".to_string(),
        Refusal::NoRight => lacking(scene),
        Refusal::Full => full(scene),
        Refusal::NotReady => not_ready(scene),
        _ => "nothing was changed".to_string(),
    };
    format!("{} is refused as {refusal}. Here {why}.", scene.asked_for())
}

impl Scene<'_> {
    /// What was asked for, as the subject of a sentence.
    fn asked_for(&self) -> String {
        match self.done.call {
            Call::Event { .. } => format!("\"{}\"", self.asked()),
            Call::Signal { .. } => format!("The withdrawal by {}", self.society()),
            Call::Fire { .. } | Call::FireLowest { .. } => format!("\"{}\"", self.asked()),
        }
    }
}

fn wrong_day(scene: &Scene<'_>, last_day: i32) -> String {
    match scene.done.call {
        Call::Event { day, .. } if (FIRST_DAY..=LAST_DAY).contains(&day) => format!(
            "{} is before {}, the day of the last event that was accepted",
            day::text(day),
            day::text(last_day)
        ),
        Call::Event { day, .. } => format!(
            "day {day} is not from {} to {}",
            day::text(FIRST_DAY),
            day::text(LAST_DAY)
        ),
        _ => String::new(),
    }
}

fn lacking(scene: &Scene<'_>) -> String {
    let society = scene.society();
    match scene.done.call {
        Call::Event { .. } => format!("{society} has the move right nowhere"),
        Call::Signal { .. } => format!("{society} has the signal right nowhere"),
        Call::Fire { track, .. } => {
            let root = scene.draft.records.root_of(track.into()) as u16;
            let root = scene.draft.track(root);
            format!("{society} has no fire right over {root}")
        }
        Call::FireLowest { .. } => format!("{society} has no fire right"),
    }
}

/// Which tracks are full: of those that hold as many as the limit those that the
/// event would give an entry as far as the records show, and else all.
fn full(scene: &Scene<'_>) -> String {
    let most = scene.limit.entries();
    let is_full = |standing: &Standing| standing.entries.len() >= usize::from(most);
    let holds_most = |&t: &u16| scene.before(t).map_or(false, is_full);
    let full: Vec<u16> = scene.tracks().filter(holds_most).collect();
    let asked = full.iter().copied().filter(|&t| event::gives(scene, t));
    let asked: Vec<u16> = asked.collect();
    let named = if asked.is_empty() { full } else { asked };
    let verb = phrase::verb(named.len(), "holds", "hold");
    let whose = limit::whose(scene.limit);
    let whose = whose.map_or_else(String::new, |whose| format!(", {whose}"));
    let named = phrase::tracks(scene.draft, &named);
    format!("{named} {verb} {most} already{whose}")
}

fn not_ready(scene: &Scene<'_>) -> String {
    match scene.done.call {
        Call::Fire { track, .. } => track_not_ready(scene, track),
        _ => none_ready(scene),
    }
}

fn track_not_ready(scene: &Scene<'_>, track: u16) -> String {
    let name = scene.draft.track(track);
    if scene.done.before.len() <= usize::from(track) {
        return format!("there is no track {track}");
    }
    let before = match scene.before(track) {
        Some(before) => before,
        None => return format!("{name} is asleep"),
    };
    let inside = look::open_scope(&scene.draft.records, &scene.done.before, track.into());
    match before.mode {
        Mode::Forward => format!("{name} is forward, and only what was withdrawn is taken back"),
        Mode::Undoing if before.entries.is_empty() => format!("{name} holds nothing"),
        Mode::Undoing => format!("{name} waits for {}", phrase::tracks(scene.draft, &inside)),
    }
}

/// Why there is no next track to take back. A refused call changed nothing, so
/// those that are ready after it were so before.
fn none_ready(scene: &Scene<'_>) -> String {
    let before = &scene.done.before;
    let ready = &scene.done.ready;
    if !ready.is_empty() {
        let tracks = phrase::tracks(scene.draft, ready);
        return format!(
            "{} may not fire {tracks}, and no other track is ready",
            scene.society()
        );
    }
    if look::in_mode(before, Mode::Undoing).is_empty() {
        return "no track is being taken back".to_string();
    }
    if standing::held(before) == 0 {
        return "nothing is left to take back".to_string();
    }
    "what is still held, forward tracks hold".to_string()
}
