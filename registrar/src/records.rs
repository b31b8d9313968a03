//! A plan's records, and their bytes.

use crate::record::{self, Record};
use retraction::NONE;

/// A track: the state that it runs inside, or none for a root.
#[derive(Clone, Copy, Debug, PartialEq, Eq)]
pub struct Track {
    pub host: Option<u16>,
}

#[derive(Clone, Copy, Debug, PartialEq, Eq)]
pub struct State {
    pub track: u16,
    /// The final field, 1 where the state is final.
    pub last: u16,
    /// The retraction that stands for a completed scope, 0 for none.
    pub replacement: u16,
}

/// A step, which the paper calls a transition.
#[derive(Clone, Copy, Debug, PartialEq, Eq)]
pub struct Step {
    pub source: u16,
    pub event: u16,
    /// Its retraction, 0 for none.
    pub code: u16,
    /// The state in which the track goes on once the retraction is fired.
    pub deviation: Option<u16>,
    pub destination: u16,
}

/// The days on which a step may be taken.
#[derive(Clone, Copy, Debug, PartialEq, Eq)]
pub struct Window {
    pub step: u16,
    pub first: i32,
    pub last: i32,
}

/// A rights record: what a society may do under a root.
#[derive(Clone, Copy, Debug, PartialEq, Eq)]
pub struct Grant {
    pub society: u16,
    pub root: u16,
    /// The rights of [`RIGHTS`], added up.
    pub sum: u16,
}

impl Grant {
    /// The rights that it gives, in words.
    #[must_use]
    pub fn rights(&self) -> Vec<&'static str> {
        let given = RIGHTS.iter().filter(|(_, part)| self.sum & part != 0);
        given.map(|(right, _)| *right).collect()
    }
}

/// The rights by their words, with their parts of a sum.
pub const RIGHTS: [(&str, u16); 3] = [("move", 1), ("signal", 2), ("fire", 4)];

/// Kinds of a plan's records.
pub mod kind {
    pub const TRACK: u16 = 1;
    pub const STATE: u16 = 2;
    pub const STEP: u16 = 3;
    pub const END: u16 = 4;
    pub const WINDOW: u16 = 5;
    pub const GRANT: u16 = 6;
}

/// The kinds in the order in which their records stand, with their lengths in
/// bytes and what they are called.
pub const KINDS: [(u16, usize, &str); 6] = [
    (kind::TRACK, 6, "track"),
    (kind::STATE, 10, "state"),
    (kind::STEP, 14, "step"),
    (kind::WINDOW, 14, "window"),
    (kind::GRANT, 10, "right"),
    (kind::END, 4, "end"),
];

/// The records of a plan, each sort in file order.
#[derive(Clone, Debug, Default, PartialEq, Eq)]
pub struct Records {
    pub tracks: Vec<Track>,
    pub states: Vec<State>,
    pub steps: Vec<Step>,
    pub windows: Vec<Window>,
    pub grants: Vec<Grant>,
}

impl Records {
    /// The plan file of these records.
    #[must_use]
    pub fn encode(&self) -> Vec<u8> {
        let mut out = Vec::new();
        let none = |state: Option<u16>| state.unwrap_or(NONE);
        for t in &self.tracks {
            record::put(&mut out, kind::TRACK, &[none(t.host)]);
        }
        for s in &self.states {
            record::put(&mut out, kind::STATE, &[s.track, s.last, s.replacement]);
        }
        for x in &self.steps {
            let deviation = none(x.deviation);
            let fields = [x.source, x.event, x.code, deviation, x.destination];
            record::put(&mut out, kind::STEP, &fields);
        }
        for w in &self.windows {
            let ([a, b], [c, d]) = (record::words_of(w.first), record::words_of(w.last));
            record::put(&mut out, kind::WINDOW, &[w.step, a, b, c, d]);
        }
        for g in &self.grants {
            record::put(&mut out, kind::GRANT, &[g.society, g.root, g.sum]);
        }
        record::put(&mut out, kind::END, &[]);
        out
    }

    /// The records of a plan file, if each has its kind's length and an end
    /// record is the last: so of every accepted plan, and of every one that is
    /// refused as 8 or above.
    #[must_use]
    pub fn decode(bytes: &[u8]) -> Option<Records> {
        let mut records = Records::default();
        let mut rest = bytes;
        loop {
            let (record, after) = record::take(rest)?;
            rest = after;
            if records.take(&record)? {
                return Some(records).filter(|_| rest.is_empty());
            }
        }
    }

    /// Takes one more record; tells whether it was the end.
    fn take(&mut self, record: &Record) -> Option<bool> {
        let some = |state: u16| Some(state).filter(|&state| state != NONE);
        match (record.kind, &record.fields[..]) {
            (kind::TRACK, &[host]) => self.tracks.push(Track { host: some(host) }),
            (kind::STATE, &[track, last, replacement]) => self.states.push(State {
                track,
                last,
                replacement,
            }),
            (kind::STEP, &[source, event, code, deviation, destination]) => self.steps.push(Step {
                source,
                event,
                code,
                deviation: some(deviation),
                destination,
            }),
            (kind::WINDOW, &[step, a, b, c, d]) => self.windows.push(Window {
                step,
                first: record::day_of(a, b),
                last: record::day_of(c, d),
            }),
            (kind::GRANT, &[society, root, sum]) => self.grants.push(Grant { society, root, sum }),
            (kind::END, &[]) => return Some(true),
            _ => return None,
        }
        Some(false)
    }

    /// The states of a track, in their order; the first is where it starts.
    pub fn states_of(&self, track: usize) -> impl Iterator<Item = usize> + '_ {
        let own = move |&s: &usize| usize::from(self.states[s].track) == track;
        (0..self.states.len()).filter(own)
    }

    /// The tracks that a state hosts.
    pub fn hosted_by(&self, state: usize) -> impl Iterator<Item = usize> + '_ {
        let inside = move |&t: &usize| self.tracks[t].host.map(usize::from) == Some(state);
        (0..self.tracks.len()).filter(inside)
    }

    /// The tracks that no state hosts.
    pub fn roots(&self) -> impl Iterator<Item = usize> + '_ {
        (0..self.tracks.len()).filter(move |&t| self.tracks[t].host.is_none())
    }

    /// The steps out of a state.
    pub fn steps_from(&self, state: usize) -> impl Iterator<Item = usize> + '_ {
        let out = move |&x: &usize| usize::from(self.steps[x].source) == state;
        (0..self.steps.len()).filter(out)
    }

    /// The window of a step, if it has one.
    #[must_use]
    pub fn window_of(&self, step: usize) -> Option<Window> {
        let mut windows = self.windows.iter().copied();
        windows.find(|w| usize::from(w.step) == step)
    }

    /// The track whose state hosts this one, for an accepted plan.
    #[must_use]
    pub fn host_track(&self, track: usize) -> Option<usize> {
        let host = self.tracks.get(track)?.host?;
        Some(usize::from(self.states.get(usize::from(host))?.track))
    }

    /// The root that a track is under, for an accepted plan.
    #[must_use]
    pub fn root_of(&self, track: usize) -> usize {
        let mut at = track;
        while let Some(host) = self.host_track(at) {
            at = host;
        }
        at
    }
}
