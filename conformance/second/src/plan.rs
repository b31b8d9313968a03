//! Plan reader: bytes to an accepted plan, or the first refusal of 2 to 16,
//! 25 and 27.
//!
//! Numbers 2 to 7 are judged record by record, 8 to 16, then 25 and then 27
//! number by number over the whole plan.

use crate::days::Term;
use crate::record::{self, Header};
use crate::refusal::{demand, Refusal};

/// A root's host, and a transition's deviation where it has none.
pub const NONE: u16 = 65535;
pub const MAX_TRACKS: usize = 32;
pub const MAX_STATES: usize = 128;
pub const MAX_TRANSITIONS: usize = 256;
pub const MAX_HEIGHT: u32 = 8;
pub const MAX_RIGHTS: usize = 64;

/// Record kinds of a plan.
pub const TRACK: u16 = 1;
pub const STATE: u16 = 2;
pub const TRANSITION: u16 = 3;
pub const END: u16 = 4;
pub const WINDOW: u16 = 5;
pub const RIGHTS: u16 = 6;

/// The kinds in the order of their records: windows stand after transitions,
/// rights after windows, and the end stays last.
pub const KINDS: [u16; 6] = [TRACK, STATE, TRANSITION, WINDOW, RIGHTS, END];

/// A track record.
#[derive(Clone, Copy, Debug, PartialEq, Eq)]
pub struct Track {
    /// The hosting state, or `NONE` for a root.
    pub host: u16,
}

/// A state record.
#[derive(Clone, Copy, Debug, PartialEq, Eq)]
pub struct State {
    pub track: u16,
    /// The final field, 0 or 1.
    pub last: u16,
    /// The replacement code, 0 for none.
    pub replacement: u16,
}

/// A transition record.
#[derive(Clone, Copy, Debug, PartialEq, Eq)]
pub struct Transition {
    pub source: u16,
    pub event: u16,
    /// The retraction code, 0 for none.
    pub code: u16,
    /// The deviation state, `NONE` for none.
    pub deviation: u16,
    pub destination: u16,
}

/// A window record.
#[derive(Clone, Copy, Debug, PartialEq, Eq)]
pub struct Window {
    pub transition: u16,
    /// The days on which the transition may be taken.
    pub term: Term,
}

/// What a society may do; its discriminant is its part of a sum of rights.
#[derive(Clone, Copy, Debug, PartialEq, Eq)]
pub enum Right {
    Move = 1,
    Signal = 2,
    Fire = 4,
}

/// A rights record.
#[derive(Clone, Copy, Debug, PartialEq, Eq)]
pub struct Rights {
    pub society: u16,
    /// The root track over which, with everything under it, they hold.
    pub root: u16,
    /// 1 move, 2 signal and 4 fire, added up.
    pub sum: u16,
}

impl Rights {
    /// All three.
    pub const ALL: u16 = 7;

    fn include(&self, right: Right) -> bool {
        self.sum & right as u16 != 0
    }
}

/// The records of a plan in file order, before they are judged as a whole.
#[derive(Clone, Debug, Default, PartialEq, Eq)]
pub struct Records {
    pub tracks: Vec<Track>,
    pub states: Vec<State>,
    pub transitions: Vec<Transition>,
    pub windows: Vec<Window>,
    pub rights: Vec<Rights>,
}

impl Records {
    /// The plan file of these records.
    pub fn encode(&self) -> Vec<u8> {
        let mut out = Vec::new();
        for t in &self.tracks {
            record::put(&mut out, TRACK, &[t.host]);
        }
        for s in &self.states {
            record::put(&mut out, STATE, &[s.track, s.last, s.replacement]);
        }
        for x in &self.transitions {
            let fields = [x.source, x.event, x.code, x.deviation, x.destination];
            record::put(&mut out, TRANSITION, &fields);
        }
        for w in &self.windows {
            let [first, last] = [w.term.first, w.term.last].map(record::words_of);
            let fields = [w.transition, first[0], first[1], last[0], last[1]];
            record::put(&mut out, WINDOW, &fields);
        }
        for r in &self.rights {
            record::put(&mut out, RIGHTS, &[r.society, r.root, r.sum]);
        }
        record::put(&mut out, END, &[]);
        out
    }

    /// Adds the whole record at the front of `bytes`; 6 where it is one too many.
    fn add(&mut self, kind: u16, bytes: &[u8]) -> Result<(), Refusal> {
        let field = |n| record::field(bytes, n);
        match kind {
            TRACK => self.add_track(Track { host: field(0) }),
            STATE => self.add_state(State {
                track: field(0),
                last: field(1),
                replacement: field(2),
            }),
            TRANSITION => self.add_transition(Transition {
                source: field(0),
                event: field(1),
                code: field(2),
                deviation: field(3),
                destination: field(4),
            }),
            // Any number of windows and of rights records is read.
            WINDOW => {
                self.windows.push(window(bytes));
                Ok(())
            }
            RIGHTS => {
                self.rights.push(rights(bytes));
                Ok(())
            }
            _ => Ok(()),
        }
    }

    fn add_track(&mut self, track: Track) -> Result<(), Refusal> {
        demand(self.tracks.len() < MAX_TRACKS, Refusal::TooMany)?;
        self.tracks.push(track);
        Ok(())
    }

    fn add_state(&mut self, state: State) -> Result<(), Refusal> {
        demand(self.states.len() < MAX_STATES, Refusal::TooMany)?;
        self.states.push(state);
        Ok(())
    }

    fn add_transition(&mut self, transition: Transition) -> Result<(), Refusal> {
        demand(self.transitions.len() < MAX_TRANSITIONS, Refusal::TooMany)?;
        self.transitions.push(transition);
        Ok(())
    }
}

/// The whole window record at the front of `bytes`.
fn window(bytes: &[u8]) -> Window {
    Window {
        transition: record::field(bytes, 0),
        term: Term {
            first: record::signed(bytes, 1),
            last: record::signed(bytes, 3),
        },
    }
}

/// The whole rights record at the front of `bytes`.
fn rights(bytes: &[u8]) -> Rights {
    Rights {
        society: record::field(bytes, 0),
        root: record::field(bytes, 1),
        sum: record::field(bytes, 2),
    }
}

/// Reads a plan: the accepted plan, or the first refusal of 2 to 16, 25 and 27.
pub fn read(bytes: &[u8]) -> Result<Plan, Refusal> {
    Plan::accept(read_records(bytes)?, bytes)
}

/// Reads the records up to the end record: refusals 2 to 7.
pub fn read_records(bytes: &[u8]) -> Result<Records, Refusal> {
    let mut records = Records::default();
    let mut rest = bytes;
    let mut kind = TRACK;
    while kind != END {
        let header = Header::read(rest).ok_or(Refusal::NoRecord)?;
        let length = record_length(header, kind)?;
        demand(length <= rest.len(), Refusal::CutShort)?;
        kind = header.kind;
        records.add(kind, rest)?;
        rest = &rest[length..];
    }
    demand(rest.is_empty(), Refusal::AfterEnd)?;
    Ok(records)
}

/// The record's length; 3 and 4 judged. `before` is the kind before it.
fn record_length(header: Header, before: u16) -> Result<usize, Refusal> {
    let own = place(header.kind).ok_or(Refusal::Kind)?;
    demand(Some(own) >= place(before), Refusal::Kind)?;
    demand(header.length == LENGTHS[own], Refusal::Length)?;
    Ok(usize::from(LENGTHS[own]))
}

/// The length of each kind of record, in the order of `KINDS`.
const LENGTHS: [u16; 6] = [6, 10, 14, 14, 10, 4];

/// The place of a kind in the order of records; `None` for an unknown kind.
fn place(kind: u16) -> Option<usize> {
    KINDS.iter().position(|&known| known == kind)
}

/// A way out of a state, sorted by source and event.
#[derive(Clone, Copy, Debug, PartialEq, Eq, PartialOrd, Ord)]
struct Exit {
    source: u16,
    event: u16,
    transition: u16,
}

/// An accepted plan, with what the rules look up in it.
#[derive(Clone, Debug, PartialEq, Eq)]
pub struct Plan {
    records: Records,
    length: u16,
    sum: u16,
    /// Each track's lowest-numbered state.
    first: Vec<u16>,
    /// Each state's scope: bit n set if it hosts track n.
    scopes: Vec<u32>,
    exits: Vec<Exit>,
    /// The days on which each transition may be taken.
    terms: Vec<Term>,
    /// The root above each track; a root's is itself.
    roots: Vec<usize>,
}

impl Plan {
    /// Judges the records of these bytes as a whole: refusals 8 to 16, 25 and
    /// 27, number by number.
    fn accept(records: Records, bytes: &[u8]) -> Result<Plan, Refusal> {
        demand(!records.tracks.is_empty(), Refusal::NoTrack)?;
        demand(states_fit(&records), Refusal::State)?;
        demand(hosts_fit(&records), Refusal::Host)?;
        let plan = Plan::index(records, bytes);
        demand(plan.first_states_fit(), Refusal::FirstState)?;
        demand(plan.hosting_fits(), Refusal::Hosting)?;
        demand(plan.transitions_fit(), Refusal::Transition)?;
        demand(plan.deviations_fit(), Refusal::Deviation)?;
        demand(plan.exits_differ(), Refusal::Twins)?;
        demand(plan.heights_fit(), Refusal::Height)?;
        demand(windows_fit(&plan.records), Refusal::Window)?;
        demand(rights_fit(&plan.records), Refusal::Rights)?;
        Ok(plan)
    }

    fn index(records: Records, bytes: &[u8]) -> Plan {
        Plan {
            length: bytes.len() as u16,
            sum: record::sum(bytes),
            first: first_states(&records),
            scopes: scopes(&records),
            exits: exits(&records),
            terms: terms(&records),
            roots: roots(&records),
            records,
        }
    }

    /// 11: every track has a state, and its first state is not final.
    fn first_states_fit(&self) -> bool {
        self.first.iter().all(|&s| s != NONE && !self.is_final(s))
    }

    /// 12: no final state hosts, no state that hosts none has a replacement.
    fn hosting_fits(&self) -> bool {
        self.state_numbers().all(|s| {
            if self.scope(s) == 0 {
                self.replacement(s) == 0
            } else {
                !self.is_final(s)
            }
        })
    }

    /// 13, for all transitions.
    fn transitions_fit(&self) -> bool {
        self.transitions().iter().all(|x| {
            self.state_exists(x.source)
                && self.state_exists(x.destination)
                && self.track_of(x.source) == self.track_of(x.destination)
                && !self.is_final(x.source)
                && x.event != 0
        })
    }

    /// 14, for all transitions.
    fn deviations_fit(&self) -> bool {
        self.transitions()
            .iter()
            .all(|x| x.deviation == NONE || self.deviation_fits(x))
    }

    fn deviation_fits(&self, x: &Transition) -> bool {
        let track = self.track_of(x.source);
        self.is_own(track, x.deviation)
            && !self.is_final(x.deviation)
            && self.is_root(track)
            && x.code != 0
    }

    /// 15: no two transitions share source and event.
    fn exits_differ(&self) -> bool {
        self.exits
            .windows(2)
            .all(|w| (w[0].source, w[0].event) != (w[1].source, w[1].event))
    }

    /// 16: no track's height exceeds 8.
    fn heights_fit(&self) -> bool {
        self.heights().iter().all(|&h| h <= MAX_HEIGHT)
    }

    /// Each track's height. A host's track has the lower number, so going
    /// down the numbers every hosted track is ready before its host.
    pub fn heights(&self) -> Vec<u32> {
        let mut heights = vec![1; self.track_count()];
        for t in (0..self.track_count()).rev() {
            if let Some(host) = self.host_track(t) {
                heights[host] = heights[host].max(heights[t] + 1);
            }
        }
        heights
    }

    /// The plan's length in bytes; an accepted plan has at most 9,284.
    pub fn length(&self) -> u16 {
        self.length
    }

    /// The sum of the plan's bytes, as `record::sum` takes it.
    pub fn sum(&self) -> u16 {
        self.sum
    }

    pub fn track_count(&self) -> usize {
        self.records.tracks.len()
    }

    pub fn state_count(&self) -> usize {
        self.records.states.len()
    }

    pub fn transition_count(&self) -> usize {
        self.records.transitions.len()
    }

    pub fn transitions(&self) -> &[Transition] {
        &self.records.transitions
    }

    /// The records, as read.
    pub fn records(&self) -> &Records {
        &self.records
    }

    /// All state numbers.
    pub fn state_numbers(&self) -> impl Iterator<Item = u16> {
        0..self.state_count() as u16
    }

    /// The state numbers of one track.
    pub fn states_of(&self, track: usize) -> impl Iterator<Item = u16> + '_ {
        self.state_numbers()
            .filter(move |&s| self.track_of(s) == track)
    }

    pub fn state_exists(&self, state: u16) -> bool {
        usize::from(state) < self.state_count()
    }

    /// The track of a state that exists.
    pub fn track_of(&self, state: u16) -> usize {
        usize::from(self.records.states[usize::from(state)].track)
    }

    /// Whether the state exists and is one of the track's.
    pub fn is_own(&self, track: usize, state: u16) -> bool {
        self.state_exists(state) && self.track_of(state) == track
    }

    /// Whether the state exists and is final.
    pub fn is_final(&self, state: u16) -> bool {
        self.state_exists(state) && self.records.states[usize::from(state)].last == 1
    }

    /// The replacement code of a state that exists.
    pub fn replacement(&self, state: u16) -> u16 {
        self.records.states[usize::from(state)].replacement
    }

    /// The tracks that a state hosts, a bit for each; none if it does not exist.
    pub fn scope(&self, state: u16) -> u32 {
        self.scopes.get(usize::from(state)).copied().unwrap_or(0)
    }

    /// The hosting states.
    pub fn hosting_states(&self) -> impl Iterator<Item = u16> + '_ {
        self.state_numbers().filter(|&s| self.scope(s) != 0)
    }

    /// The lowest-numbered state of a track.
    pub fn first_state(&self, track: usize) -> u16 {
        self.first[track]
    }

    pub fn is_root(&self, track: usize) -> bool {
        self.host(track) == NONE
    }

    /// The hosting state of a track, `NONE` for a root.
    pub fn host(&self, track: usize) -> u16 {
        self.records.tracks[track].host
    }

    /// The track of the hosting state; `None` for a root.
    pub fn host_track(&self, track: usize) -> Option<usize> {
        let host = self.host(track);
        (host != NONE).then(|| self.track_of(host))
    }

    pub fn roots(&self) -> impl Iterator<Item = usize> + '_ {
        (0..self.track_count()).filter(|&t| self.is_root(t))
    }

    /// The root that a track is or is under.
    pub fn root_of(&self, track: usize) -> usize {
        self.roots[track]
    }

    /// Whether a society has a right over the root of a track that exists.
    pub fn allows(&self, society: u16, right: Right, track: usize) -> bool {
        let root = self.root_of(track);
        self.rights_of(society, right)
            .any(|r| usize::from(r.root) == root)
    }

    /// Whether a society has a right over any root.
    pub fn allows_somewhere(&self, society: u16, right: Right) -> bool {
        self.rights_of(society, right).next().is_some()
    }

    /// The records that give a society a right.
    fn rights_of(&self, society: u16, right: Right) -> impl Iterator<Item = &Rights> {
        let rights = self.records.rights.iter();
        rights.filter(move |r| r.society == society && r.include(right))
    }

    /// The state's transition for that event, if it has one, with the days on
    /// which it may be taken.
    pub fn transition(&self, state: u16, event: u16) -> Option<(&Transition, Term)> {
        let key = (state, event);
        let at = self
            .exits
            .binary_search_by_key(&key, |e| (e.source, e.event));
        at.ok().map(|at| self.transition_of(&self.exits[at]))
    }

    /// The transitions out of a state, by event, each with its days.
    pub fn transitions_from(&self, state: u16) -> impl Iterator<Item = (&Transition, Term)> {
        let from = self.exits.partition_point(|e| e.source < state);
        self.exits[from..]
            .iter()
            .take_while(move |e| e.source == state)
            .map(|e| self.transition_of(e))
    }

    fn transition_of(&self, exit: &Exit) -> (&Transition, Term) {
        let number = usize::from(exit.transition);
        (&self.transitions()[number], self.terms[number])
    }
}

/// The track numbers whose bits are set.
pub fn members(mut tracks: u32) -> impl Iterator<Item = usize> {
    std::iter::from_fn(move || {
        if tracks == 0 {
            return None;
        }
        let track = tracks.trailing_zeros() as usize;
        tracks &= tracks - 1;
        Some(track)
    })
}

/// 9: every state names a track, and its final field is 0 or 1.
fn states_fit(records: &Records) -> bool {
    let tracks = records.tracks.len();
    records
        .states
        .iter()
        .all(|s| usize::from(s.track) < tracks && s.last <= 1)
}

/// 10: every host is 65535 or a state of a lower-numbered track.
fn hosts_fit(records: &Records) -> bool {
    let lower = |host: u16, track: usize| {
        let state = records.states.get(usize::from(host));
        state.map_or(false, |s| usize::from(s.track) < track)
    };
    records
        .tracks
        .iter()
        .enumerate()
        .all(|(t, track)| track.host == NONE || lower(track.host, t))
}

/// Each track's lowest-numbered state, `NONE` where it has no state.
fn first_states(records: &Records) -> Vec<u16> {
    let mut first = vec![NONE; records.tracks.len()];
    for (number, state) in records.states.iter().enumerate().rev() {
        first[usize::from(state.track)] = number as u16;
    }
    first
}

fn scopes(records: &Records) -> Vec<u32> {
    let mut scopes = vec![0; records.states.len()];
    for (t, track) in records.tracks.iter().enumerate() {
        if track.host != NONE {
            scopes[usize::from(track.host)] |= 1 << t;
        }
    }
    scopes
}

fn exits(records: &Records) -> Vec<Exit> {
    let exit = |(n, x): (usize, &Transition)| Exit {
        source: x.source,
        event: x.event,
        transition: n as u16,
    };
    let mut exits: Vec<Exit> = records.transitions.iter().enumerate().map(exit).collect();
    exits.sort_unstable();
    exits
}

/// 25: every window names a transition that no other one names, and its days
/// fit.
fn windows_fit(records: &Records) -> bool {
    let mut named = vec![false; records.transitions.len()];
    records.windows.iter().all(|w| {
        let first_to_name = match named.get_mut(usize::from(w.transition)) {
            Some(named) => !std::mem::replace(named, true),
            None => false,
        };
        first_to_name && w.term.fits()
    })
}

/// 27: at most 64 rights records, each for a root, with a sum from 1 to 7, and
/// one for each pair of society and root.
fn rights_fit(records: &Records) -> bool {
    let is_root = |root: u16| {
        let track = records.tracks.get(usize::from(root));
        track.map_or(false, |track| track.host == NONE)
    };
    let fits = |r: &Rights| is_root(r.root) && (1..=Rights::ALL).contains(&r.sum);
    let mut pairs: Vec<_> = records.rights.iter().map(|r| (r.society, r.root)).collect();
    pairs.sort_unstable();
    pairs.dedup();
    records.rights.len() <= MAX_RIGHTS
        && records.rights.iter().all(fits)
        && pairs.len() == records.rights.len()
}

/// The root above each track. Hosts lie in lower-numbered tracks, so each
/// host's root is known before.
fn roots(records: &Records) -> Vec<usize> {
    let mut roots = Vec::new();
    for (t, track) in records.tracks.iter().enumerate() {
        let host = records.states.get(usize::from(track.host));
        roots.push(host.map_or(t, |state| roots[usize::from(state.track)]));
    }
    roots
}

/// The days of each transition: its window's, or the whole range. A window that
/// names no transition is passed over; 25 is for it.
fn terms(records: &Records) -> Vec<Term> {
    let mut terms = vec![Term::RANGE; records.transitions.len()];
    for window in &records.windows {
        if let Some(term) = terms.get_mut(usize::from(window.transition)) {
            *term = window.term;
        }
    }
    terms
}
