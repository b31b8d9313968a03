//! Plans and journals of the paper, and the builders for others.

use second::days::Term;
use second::journal::Record;
use second::plan::{Records, Rights, State, Track, Transition, Window, NONE};

pub fn track(host: u16) -> Track {
    Track { host }
}

pub fn state(track: u16, last: u16, replacement: u16) -> State {
    State {
        track,
        last,
        replacement,
    }
}

/// A transition without deviation: source, event, code, destination.
pub fn step(source: u16, event: u16, code: u16, destination: u16) -> Transition {
    Transition {
        source,
        event,
        code,
        deviation: NONE,
        destination,
    }
}

/// The transition may be taken from the first day to the last alone.
pub fn window(transition: u16, first: i32, last: i32) -> Window {
    Window {
        transition,
        term: Term { first, last },
    }
}

/// The society has these rights over the root.
pub fn rights(society: u16, root: u16, sum: u16) -> Rights {
    Rights { society, root, sum }
}

/// The society of the paper's runs.
pub const SOCIETY: u16 = 1;

/// All rights of that society over these roots.
pub fn every_right(roots: &[u16]) -> Vec<Rights> {
    let all = |&root: &u16| rights(SOCIETY, root, Rights::ALL);
    roots.iter().map(all).collect()
}

/// An event on day 0 by society 1, as the paper's runs are read.
pub fn event(event: u16) -> Record {
    event_on(event, 0)
}

/// The same on another day.
pub fn event_on(event: u16, day: i32) -> Record {
    Record::Event(event, day, SOCIETY)
}

/// A signal by society 1.
pub fn signal() -> Record {
    Record::Signal(SOCIETY)
}

/// A firing by society 1.
pub fn fire(track: u16) -> Record {
    Record::Fire(track, SOCIETY)
}

/// A firing by society 1 of the lowest track that it may fire.
pub fn lowest() -> Record {
    Record::FireLowest(SOCIETY)
}

/// The records of the sample plan P.
pub fn sample_records() -> Records {
    Records {
        tracks: vec![track(NONE), track(1), track(1)],
        states: vec![
            state(0, 0, 0),
            state(0, 0, 90),
            state(0, 1, 0),
            state(1, 0, 0),
            state(1, 1, 0),
            state(2, 0, 0),
            state(2, 0, 0),
            state(2, 1, 0),
        ],
        transitions: vec![
            step(0, 10, 50, 1),
            step(1, 13, 0, 2),
            step(3, 11, 51, 4),
            step(5, 12, 52, 6),
            step(6, 14, 54, 7),
        ],
        windows: vec![],
        rights: every_right(&[0]),
    }
}

/// The bytes of the sample plan P.
pub fn sample() -> Vec<u8> {
    sample_records().encode()
}

/// One root with a self loop of code 7 under event 1, event 2 leaving it with
/// code 8 for its final state, and event 3 doing so without a code.
pub fn looping() -> Records {
    Records {
        tracks: vec![track(NONE)],
        states: vec![state(0, 0, 0), state(0, 1, 0)],
        transitions: vec![step(0, 1, 7, 0), step(0, 2, 8, 1), step(0, 3, 0, 1)],
        windows: vec![],
        rights: every_right(&[0]),
    }
}

/// A transition of code 50 whose deviation is its own source.
pub fn detour(source: u16, event: u16, destination: u16) -> Transition {
    Transition {
        deviation: source,
        ..step(source, event, 50, destination)
    }
}

/// Two roots that both move by event 1. Root 0 has states 0, 1 and 2 (final);
/// its first transition deviates to state 0, event 2 ends it with code 51,
/// event 3 at once and without a code. Root 1 has states 3, 4 and 5 (final);
/// event 4 ends it.
pub fn two_links() -> Records {
    Records {
        tracks: vec![track(NONE); 2],
        states: (0..6)
            .map(|n| state(n / 3, u16::from(n % 3 == 2), 0))
            .collect(),
        transitions: vec![
            detour(0, 1, 1),
            step(1, 2, 51, 2),
            step(0, 3, 0, 2),
            step(3, 1, 60, 4),
            step(4, 4, 0, 5),
        ],
        windows: vec![],
        rights: every_right(&[0, 1]),
    }
}

/// The same with a scope in root 1: its state 4 hosts track 2 with states 6, 7
/// and 8 (final), and state 7 hosts track 3 with states 9 and 10 (final). Root
/// 1 enters its scope with this code. Event 5 opens the inner scope, event 6
/// loops in it with code 90, event 7 ends it, event 8 ends the outer one.
pub fn scoped_links(code: u16) -> Records {
    let mut plan = two_links();
    plan.tracks.extend([track(4), track(7)]);
    plan.states[4].replacement = 80;
    let outer = [state(2, 0, 0), state(2, 0, 0), state(2, 1, 0)];
    plan.states.extend(outer);
    plan.states.extend([state(3, 0, 0), state(3, 1, 0)]);
    plan.transitions[3].code = code;
    plan.transitions.extend([
        step(6, 5, 0, 7),
        step(9, 6, 90, 9),
        step(9, 7, 0, 10),
        step(7, 8, 0, 8),
    ]);
    plan
}

/// The same without a deviation, with codes 60 and 70 on the ways into both
/// scopes, and with a second branch: track 4, hosted by state 4 beside track 2,
/// with states 11 and 12 (final), which event 9 ends with code 95.
pub fn branching_links() -> Records {
    let mut plan = scoped_links(60);
    plan.tracks.push(track(4));
    plan.states.extend([state(4, 0, 0), state(4, 1, 0)]);
    plan.transitions[0].deviation = NONE;
    plan.transitions[5].code = 70;
    plan.transitions.push(step(11, 9, 95, 12));
    plan
}

/// `looping` with event 9, which deviates to the first state, and a second root
/// with one state.
pub fn looping_link() -> Records {
    let mut plan = looping();
    plan.tracks.push(track(NONE));
    plan.states.push(state(1, 0, 0));
    plan.transitions.push(detour(0, 9, 0));
    plan.rights = every_right(&[0, 1]);
    plan
}

/// `two_links` with root 1 deviating and ending as root 0 does, and a third
/// root with one state.
pub fn three_links() -> Records {
    let mut plan = two_links();
    plan.tracks.push(track(NONE));
    plan.states.push(state(2, 0, 0));
    plan.transitions[3].deviation = 3;
    plan.transitions[4] = step(3, 3, 0, 5);
    plan.rights = every_right(&[0, 1, 2]);
    plan
}

pub fn journal(records: &[Record]) -> Vec<u8> {
    let mut bytes = Vec::new();
    for record in records {
        record.encode(&mut bytes);
    }
    bytes
}

/// Two brothers marry two sisters. Track 0 is the link of the two families;
/// 1 and 2 are the marriages, hosted by state 1; 3 and 4 are the papers of
/// the elder couple, hosted by state 3, and 5 and 6 those of the younger,
/// hosted by state 5.
pub fn brothers() -> Records {
    let hosts = [NONE, 1, 1, 3, 3, 5, 5];
    let papers = (7..15).map(|n| state((n - 1) / 2, (n - 1) % 2, 0));
    let mut states = vec![
        state(0, 0, 0),
        state(0, 0, 190),
        state(0, 1, 0),
        state(1, 0, 139),
        state(1, 1, 0),
        state(2, 0, 149),
        state(2, 1, 0),
    ];
    states.extend(papers);
    Records {
        tracks: hosts.map(track).to_vec(),
        states,
        transitions: vec![
            step(0, 1, 101, 1),
            step(1, 2, 0, 2),
            step(3, 30, 130, 4),
            step(5, 40, 140, 6),
            step(7, 31, 131, 8),
            step(9, 32, 132, 10),
            step(11, 41, 141, 12),
            step(13, 42, 142, 14),
        ],
        windows: vec![],
        rights: every_right(&[0]),
    }
}
