//! Names for a plan of bytes, taken from an older text of it.

use crate::draft::{Draft, Lines, Name, Names};
use crate::records::Records;

/// The tables and the plan's name are the old ones. Tracks and states keep their
/// names where there are as many of them and, for a state, its track is the same;
/// otherwise they are called by their numbers, t0 or s0.
#[must_use]
pub fn names_from(records: Records, old: &Draft) -> Draft {
    let fresh = Draft::of_records(records);
    let records = fresh.records;
    let same_tracks = records.tracks.len() == old.records.tracks.len();
    let same_states = same_tracks && records.states.len() == old.records.states.len();
    let mut states = fresh.names.states;
    if same_states {
        let olds = old.names.states.iter().zip(&old.records.states);
        let kept: Vec<bool> = olds
            .zip(&records.states)
            .map(|((_, old), new)| old.track == new.track)
            .collect();
        for (at, name) in states.iter_mut().enumerate() {
            if kept[at] {
                *name = old.names.states[at].clone();
            }
        }
        tell_apart(&records, &mut states, &kept);
    }
    let tracks = match same_tracks {
        true => old.names.tracks.clone(),
        false => fresh.names.tracks,
    };
    Draft {
        names: Names {
            tracks,
            states,
            ..old.names.clone()
        },
        records,
        lines: Lines::default(),
    }
}

/// A state that was not kept may be called as an old one of its track: then its
/// name grows.
fn tell_apart(records: &Records, states: &mut [Name], kept: &[bool]) {
    for at in (0..states.len()).filter(|&at| !kept[at]) {
        let track = records.states[at].track;
        let taken = |name: &str| {
            let mut others = (0..states.len()).filter(|&other| other != at);
            others.any(|other| records.states[other].track == track && states[other].name == name)
        };
        let mut name = states[at].name.clone();
        while taken(&name) {
            name.push('-');
        }
        states[at].name = name;
    }
}
