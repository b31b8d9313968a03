//! A signal: who withdraws, what turned, what stayed forward.

use super::{sentence, Scene};
use crate::draft::Draft;
use crate::look::{self, Standings};
use crate::phrase;
use crate::standing::{self, Mode};
use retraction::Entry;

/// An accepted signal.
pub(super) fn told(scene: &Scene<'_>, turned: u16) -> String {
    let forward = look::in_mode(&scene.done.before, Mode::Forward);
    let (turning, staying) = forward
        .into_iter()
        .partition::<Vec<u16>, _>(|&t| turns(scene, t));
    let society = scene.society();
    let turning = if turning.len() == usize::from(turned) {
        phrase::tracks(scene.draft, &turning)
    } else {
        phrase::count(turned.into(), "track")
    };
    let turning = match turned {
        0 => "nothing turns round".to_string(),
        1 => format!("{turning} turns round"),
        _ => format!("{turning} turn round"),
    };
    let (verb, them) = if staying.len() == 1 {
        ("stays", "it")
    } else {
        ("stay", "them")
    };
    let tracks = phrase::tracks(scene.draft, &staying);
    let staying = Some(tracks).filter(|tracks| !tracks.is_empty());
    let staying =
        staying.map(|tracks| format!("{tracks} {verb} forward, for {society} may not turn {them}"));
    let parts = vec![
        Some(turning),
        staying,
        given_up(scene),
        due(scene),
        ended(scene),
    ];
    sentence(&scene.asked(), parts)
}

/// Whether a forward track turned. Where all has ended the standings do not show
/// it, and the rights do.
fn turns(scene: &Scene<'_>, track: u16) -> bool {
    if scene.done.over {
        let society = scene.done.call.society();
        return look::may(&scene.draft.records, society, look::SIGNAL, track.into());
    }
    let after = scene.after(track);
    after.map_or(true, |after| after.mode == Mode::Undoing)
}

/// The tracks that went to sleep with nothing to take back.
pub(super) fn given_up(scene: &Scene<'_>) -> Option<String> {
    if scene.done.over {
        return None;
    }
    let gone = look::gone(&scene.done.before, &scene.done.after);
    let verb = phrase::verb(gone.len(), "is", "are");
    let tracks = Some(phrase::tracks(scene.draft, &gone)).filter(|tracks| !tracks.is_empty());
    tracks.map(|tracks| format!("{tracks} {verb} given up, with nothing held any more"))
}

/// How many letters are due, or what is held and why that is no count of them.
fn due(scene: &Scene<'_>) -> Option<String> {
    if scene.done.over {
        return None;
    }
    let after = &scene.done.after;
    let held = standing::held(after);
    if look::is_exact(after) {
        return Some(letters(held, "due"));
    }
    let held = match held {
        1 => "1 retraction is held".to_string(),
        _ => format!("{} are held", phrase::count(held, "retraction")),
    };
    Some(format!(
        "{held}, which is no count of letters: {}",
        why_not_exact(scene.draft, after)
    ))
}

/// `4 letters are due`.
pub(super) fn letters(number: usize, how: &str) -> String {
    let verb = if number > 1 { "are" } else { "is" };
    format!("{} {verb} {how}", phrase::count(number, "letter"))
}

/// Why the entries held are no count of letters.
pub(crate) fn why_not_exact(draft: &Draft, standings: &Standings) -> String {
    let forward = look::in_mode(standings, Mode::Forward);
    if forward.is_empty() {
        return "a track may go on another way once it is fired".to_string();
    }
    let verb = phrase::verb(forward.len(), "is", "are");
    format!("{} {verb} still forward", phrase::tracks(draft, &forward))
}

/// That the signal ended all, and what was dropped.
fn ended(scene: &Scene<'_>) -> Option<String> {
    let before = scene.done.before.iter().flatten();
    let held: Vec<Entry> = before.flat_map(|s| s.entries.clone()).collect();
    scene.over(held)
}
