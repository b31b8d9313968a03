//! An event: which tracks it moved, what it opened and completed, which stayed.

use super::{sentence, Scene};
use crate::day;
use crate::journal::Call;
use crate::look;
use crate::phrase;
use crate::records::Step;
use crate::standing::{Mode, Standing};
use retraction::{Entry, Moved};

/// An accepted event.
pub(super) fn told(scene: &Scene<'_>, figures: Moved) -> String {
    let fates: Vec<(u16, Fate)> = scene.tracks().map(|t| (t, fate(scene, t))).collect();
    let idle = |(_, fate): &(u16, Fate)| matches!(fate, Fate::Idle);
    let moves = fates.iter().map(|(t, fate)| moved(scene, *t, fate));
    let stays = fates.iter().map(|(t, fate)| stayed(scene, *t, fate));
    let mut parts: Vec<Option<String>> = moves.collect();
    if figures.moved == 0 {
        parts.push(Some("nothing moves".to_string()));
    }
    if figures.moved == 0 && fates.iter().all(idle) {
        parts.push(Some("no track at work has a step for it".to_string()));
    }
    parts.push(scene.started());
    parts.extend(completed(scene));
    parts.extend(stays);
    parts.push(scene.over(held_before_the_end(scene)));
    sentence(&scene.asked(), parts)
}

/// What became of a track.
enum Fate {
    /// It took this step.
    Moved(Step),
    /// It has a step for the event, and did not take it: why.
    Stayed(String),
    /// It has no step for the event where it stands, or is asleep.
    Idle,
}

/// Read from how the track stood before and stands after. A step that leads back
/// to where it stands and leaves nothing behind shows in neither; it was taken if
/// nothing in the records speaks against it.
fn fate(scene: &Scene<'_>, track: u16) -> Fate {
    let before = match scene.before(track) {
        Some(before) => before,
        None => return Fate::Idle,
    };
    let step = match step_of(scene, before) {
        Some((number, step)) => (number, step),
        None => return Fate::Idle,
    };
    if shows_a_move(scene, track, before) {
        return Fate::Moved(step.1);
    }
    match against(scene, track, before, step.0) {
        Some(why) => Fate::Stayed(why),
        None => Fate::Moved(step.1),
    }
}

/// The step for the event out of a track's state.
fn step_of(scene: &Scene<'_>, standing: &Standing) -> Option<(usize, Step)> {
    let event = match scene.done.call {
        Call::Event { event, .. } => event,
        _ => return None,
    };
    let records = &scene.draft.records;
    let number = look::step_on(records, standing.state, event)?;
    Some((number, records.steps[number]))
}

/// Whether a track that has a step shows that it took it. One that is asleep
/// afterwards was completed, or all has ended: it stood in a state that is not
/// final, so it moved if it was forward.
fn shows_a_move(scene: &Scene<'_>, track: u16, before: &Standing) -> bool {
    let waited = !open_scope(scene, track).is_empty();
    if before.mode == Mode::Undoing || waited {
        return false;
    }
    match scene.after(track) {
        Some(after) => after != before,
        None => true,
    }
}

fn open_scope(scene: &Scene<'_>, track: u16) -> Vec<u16> {
    look::open_scope(&scene.draft.records, &scene.done.before, track.into())
}

/// What keeps a track from its step, first what stays so: a right that is missing.
fn against(scene: &Scene<'_>, track: u16, before: &Standing, step: usize) -> Option<String> {
    let records = &scene.draft.records;
    let society = scene.done.call.society();
    if !look::may(records, society, look::MOVE, track.into()) {
        return Some(format!("{} may not move it", scene.society()));
    }
    if before.mode == Mode::Undoing {
        return Some("it is being taken back".to_string());
    }
    let inside = open_scope(scene, track);
    if !inside.is_empty() {
        return Some(format!(
            "it waits for {}",
            phrase::tracks(scene.draft, &inside)
        ));
    }
    let window = records.window_of(step)?;
    let shut = match scene.done.call {
        Call::Event { day, .. } => day < window.first || day > window.last,
        _ => false,
    };
    let days = day::span(window.first, window.last);
    let open = format!("its window is {days}");
    Some(open).filter(|_| shut)
}

/// The step that a track would take, as far as the records show.
fn free_step(scene: &Scene<'_>, track: u16) -> Option<Step> {
    let before = scene.before(track)?;
    let (number, step) = step_of(scene, before)?;
    Some(step).filter(|_| against(scene, track, before, number).is_none())
}

/// Whether the event would give a track an entry: that of its step, or the one
/// that stands for its scope, which the event would complete.
pub(super) fn gives(scene: &Scene<'_>, track: u16) -> bool {
    let before = match scene.before(track) {
        Some(before) if before.mode == Mode::Forward => before,
        _ => return false,
    };
    let inside = open_scope(scene, track);
    if inside.is_empty() {
        return free_step(scene, track).map_or(false, |step| step.code != 0);
    }
    let states = &scene.draft.records.states;
    let ends = |&t: &u16| {
        let now = scene.before(t).map(|standing| standing.state);
        let next = free_step(scene, t).map(|step| step.destination);
        let state = next.or(now).map(usize::from);
        state.map_or(false, |state| states[state].last == 1)
    };
    states[usize::from(before.state)].replacement != 0 && inside.iter().all(ends)
}

fn stayed(scene: &Scene<'_>, track: u16, fate: &Fate) -> Option<String> {
    match fate {
        Fate::Stayed(why) => Some(format!("{} stays, for {why}", scene.draft.track(track))),
        _ => None,
    }
}

fn moved(scene: &Scene<'_>, track: u16, fate: &Fate) -> Option<String> {
    let step = match fate {
        Fate::Moved(step) => step,
        _ => return None,
    };
    let name = scene.draft.track(track);
    let (from, to) = (step.source, step.destination);
    let to_state = scene.draft.state(to);
    let went = if from == to {
        format!("{name} takes a step and is in {to_state} again")
    } else {
        format!("{name} goes from {} to {to_state}", scene.draft.state(from))
    };
    Some(format!("{went}{}", left_behind(scene, track, step)))
}

/// What a step left behind, and how much the track holds with it.
fn left_behind(scene: &Scene<'_>, track: u16, step: &Step) -> String {
    let after = match scene.after(track) {
        Some(after) => after,
        None => return String::new(),
    };
    let newest = after.entries.last().filter(|_| step.code != 0);
    match newest {
        None => ", with nothing to take back for it".to_string(),
        Some(&entry) => {
            let entry = phrase::entry(scene.draft, entry);
            let held = after.entries.len();
            let of = if held > 1 {
                format!(", its newest of {held}")
            } else {
                String::new()
            };
            format!(" and holds {entry}{of}")
        }
    }
}

/// The entries of a track just before it went to sleep: those that it held, and
/// that of its last step.
fn held_at_last(scene: &Scene<'_>, track: u16) -> Vec<Entry> {
    let before = match scene.before(track) {
        Some(before) => before,
        None => return Vec::new(),
    };
    let mut entries = before.entries.clone();
    if let Fate::Moved(step) = fate(scene, track) {
        let (code, deviation) = (step.code, step.deviation);
        entries.extend(Some(Entry { code, deviation }).filter(|entry| entry.code != 0));
    }
    entries
}

/// What was dropped where the event ended all.
fn held_before_the_end(scene: &Scene<'_>) -> Vec<Entry> {
    let tracks = scene.tracks();
    tracks.flat_map(|t| held_at_last(scene, t)).collect()
}

/// Each scope that was completed: what was dropped, and what stands for it.
fn completed(scene: &Scene<'_>) -> Vec<Option<String>> {
    if scene.done.over {
        return Vec::new();
    }
    let gone = look::gone(&scene.done.before, &scene.done.after);
    let host = |&t: &u16| scene.draft.records.tracks[usize::from(t)].host;
    let mut hosts: Vec<u16> = gone.iter().filter_map(host).collect();
    hosts.sort_unstable();
    hosts.dedup();
    let told = |state: u16| {
        let inside: Vec<u16> = gone
            .iter()
            .copied()
            .filter(|t| host(t) == Some(state))
            .collect();
        Some(completion(scene, state, &inside))
    };
    hosts.into_iter().map(told).collect()
}

/// A completed scope.
fn completion(scene: &Scene<'_>, state: u16, inside: &[u16]) -> String {
    let draft = scene.draft;
    let record = draft.records.states[usize::from(state)];
    let dropped: Vec<Entry> = inside
        .iter()
        .flat_map(|&t| held_at_last(scene, t))
        .collect();
    let (what, host) = (phrase::tracks(draft, inside), draft.track(record.track));
    let stands = match record.replacement {
        0 => "nothing stands for it".to_string(),
        code => format!("{host} holds {} for it", phrase::retraction(draft, code)),
    };
    let verb = phrase::verb(inside.len(), "is", "are");
    let what = format!("{what} {verb} complete in {} of {host}", draft.state(state));
    match dropped.len() {
        0 => format!("{what}, and {stands}"),
        1 => format!(
            "{what}: {} is dropped, and {stands}",
            phrase::entries(draft, dropped)
        ),
        _ => format!(
            "{what}: {} are dropped, and {stands}",
            phrase::entries(draft, dropped)
        ),
    }
}
