//! What a plan's records and the tracks' standings show, for explanations.
//! Nothing here decides: the proved calls did.

use crate::records::{Records, RIGHTS};
use crate::standing::{Mode, Standing};

/// Each track, as a ledger or a run has it.
pub type Standings = [Option<Standing>];

/// Parts of a rights record's sum.
pub const MOVE: u16 = RIGHTS[0].1;
pub const SIGNAL: u16 = RIGHTS[1].1;
pub const FIRE: u16 = RIGHTS[2].1;

/// Whether a rights record gives the society this right over the track's root.
#[must_use]
pub fn may(records: &Records, society: u16, right: u16, track: usize) -> bool {
    let root = records.root_of(track);
    let gives = |grant: &crate::records::Grant| {
        grant.society == society && usize::from(grant.root) == root && grant.sum & right != 0
    };
    records.grants.iter().any(gives)
}

/// The step out of a state on an event.
#[must_use]
pub fn step_on(records: &Records, state: u16, event: u16) -> Option<usize> {
    let mut steps = records.steps_from(usize::from(state));
    steps.find(|&x| records.steps[x].event == event)
}

/// The tracks that a track's state hosts and that are awake: its open scope.
#[must_use]
pub fn open_scope(records: &Records, standings: &Standings, track: usize) -> Vec<u16> {
    let state = match standings.get(track) {
        Some(Some(standing)) => usize::from(standing.state),
        _ => return Vec::new(),
    };
    let hosted = records.hosted_by(state);
    let awake = hosted.filter(|&t| matches!(standings.get(t), Some(Some(_))));
    awake.map(|t| t as u16).collect()
}

/// The tracks in a mode.
#[must_use]
pub fn in_mode(standings: &Standings, mode: Mode) -> Vec<u16> {
    let is = |t: &usize| matches!(&standings[*t], Some(standing) if standing.mode == mode);
    let tracks = (0..standings.len()).filter(is);
    tracks.map(|t| t as u16).collect()
}

/// The tracks that were awake before and are asleep after.
#[must_use]
pub fn gone(before: &Standings, after: &Standings) -> Vec<u16> {
    let is = |t: &usize| before[*t].is_some() && after[*t].is_none();
    let tracks = (0..before.len()).filter(is);
    tracks.map(|t| t as u16).collect()
}

/// Whether some entry that is held has a deviation.
#[must_use]
pub fn deviation_held(standings: &Standings) -> bool {
    let entries = standings.iter().flatten().flat_map(|s| &s.entries);
    entries.into_iter().any(|entry| entry.deviation.is_some())
}

/// Whether the entries held are exactly the letters that are due: no track is
/// forward, and no entry has a deviation. That they are is a theorem.
#[must_use]
pub fn is_exact(standings: &Standings) -> bool {
    in_mode(standings, Mode::Forward).is_empty() && !deviation_held(standings)
}

/// Whether nothing is left of anything: every root is undoing, holds nothing,
/// and has no open scope.
#[must_use]
pub fn is_restored(records: &Records, standings: &Standings) -> bool {
    let spent = |root: usize| match &standings[root] {
        Some(standing) => {
            standing.mode == Mode::Undoing
                && standing.entries.is_empty()
                && open_scope(records, standings, root).is_empty()
        }
        None => false,
    };
    records.roots().all(spent)
}
