//! A firing: what is taken back, and what goes with it.

use super::signal::{given_up, letters};
use super::{sentence, Scene};
use crate::look;
use crate::phrase;
use crate::standing;
use retraction::Entry;

/// An accepted firing.
pub(super) fn told(scene: &Scene<'_>, track: u16, entry: Entry) -> String {
    let name = scene.draft.track(track);
    let by = scene.by();
    let onward = entry.deviation.map(|state| {
        let state = scene.draft.state(state);
        format!("{name} goes forward again in {state}")
    });
    let parts = vec![
        Some(phrase::retraction(scene.draft, entry.code)),
        onward,
        scene.started(),
        given_up(scene),
        left(scene, track),
        scene.over(dropped(scene, track)),
    ];
    sentence(&format!("{name} takes back{by}"), parts)
}

/// What is left: the letters, where their count is exact, or else what the track
/// still holds.
fn left(scene: &Scene<'_>, track: u16) -> Option<String> {
    if scene.done.over {
        return None;
    }
    let after = &scene.done.after;
    let held = standing::held(after);
    if look::is_exact(after) {
        let none = "nothing is left to take back".to_string();
        return Some(if held == 0 {
            none
        } else {
            letters(held, "left")
        });
    }
    let own = scene.after(track).map_or(0, |after| after.entries.len());
    let more = phrase::count(own, "more retraction");
    Some(format!("it holds {more}")).filter(|_| own > 0)
}

/// What other tracks held when the firing ended all.
fn dropped(scene: &Scene<'_>, track: u16) -> Vec<Entry> {
    let others = scene.tracks().filter(|&t| t != track);
    let entries = others.filter_map(|t| scene.before(t));
    entries.flat_map(|before| before.entries.clone()).collect()
}
