//! Plans for the largest number of entries. Bounded ones have neither deviation
//! nor cycle: deep ones, ones with many equal paths, ones whose states are
//! numbered against their transitions, hosting states anywhere on the paths.
//! Unbounded ones, which are 29, have a deviation, a cycle that is reached or
//! not, or a self-loop.

use super::damage;
use super::days;
use super::plans;
use super::rng::Rng;
use super::societies;
use second::plan::{
    Records, Rights, State, Track, Transition, Window, MAX_HEIGHT, MAX_STATES, MAX_TRACKS,
    MAX_TRANSITIONS, NONE,
};

/// How the states of a track are numbered, seen along its transitions. Its
/// first state is the lowest-numbered one in any case.
#[derive(Clone, Copy)]
enum Numbering {
    Rising,
    /// The first state comes last: no transition leaves it.
    Falling,
    /// The first state comes first, the others fall.
    FallingFromFirst,
    /// The first state comes first, the others in any order.
    Mixed,
    Any,
}

/// What a bounded plan is to look like.
#[derive(Clone)]
struct Shape {
    tracks: usize,
    states: usize,
    transitions: usize,
    numbering: Numbering,
    /// Percent of tracks that are roots.
    roots: usize,
    /// Percent of states joined to the next one of their track.
    joined: usize,
    /// Percent of further transitions that lead to the next state.
    near: usize,
    /// Percent of transitions without a code.
    codeless: usize,
    /// Percent of hosting states without a replacement.
    bare: usize,
    /// Percent of final states among those that are not last of their track.
    last: usize,
}

/// The records of an accepted plan with neither deviation nor cycle.
pub fn bounded(rng: &mut Rng) -> Records {
    let shape = match rng.below(100) {
        0..=34 => return straightened(rng),
        35..=49 => deep(rng),
        50..=64 => equal(rng),
        _ => middling(rng),
    };
    sketch(rng, &shape)
}

/// The records of an accepted plan that is 29, mostly for one reason alone.
pub fn unbounded(rng: &mut Rng) -> Records {
    loop {
        let mut plan = bounded(rng);
        let faults = if rng.chance(85) { 1 } else { 2 };
        let made = (0..faults)
            .filter(|_| unbind(rng, &mut plan, &ROOM))
            .count();
        if made > 0 {
            return plan;
        }
    }
}

/// The bytes of a bounded plan, an unbounded one, any plan, or a damaged one.
pub fn any_plan(rng: &mut Rng) -> Vec<u8> {
    match rng.below(100) {
        0..=64 => bounded(rng).encode(),
        65..=84 => unbounded(rng).encode(),
        85..=89 => plans::bytes(rng, MAX_TRACKS),
        90..=92 => damage::refused_as(rng, MAX_TRACKS, 27),
        93..=95 => astray(rng),
        _ => damage::any_plan(rng, MAX_TRACKS),
    }
}

/// A bounded plan with a byte that went astray.
fn astray(rng: &mut Rng) -> Vec<u8> {
    let mut bytes = bounded(rng).encode();
    let at = rng.below(bytes.len());
    bytes[at] ^= 1 << rng.below(8);
    bytes
}

/// How many states and transitions a plan may have.
struct Room {
    states: usize,
    transitions: usize,
}

const ROOM: Room = Room {
    states: MAX_STATES,
    transitions: MAX_TRANSITIONS,
};

/// Those of a small plan.
const SMALL: Room = Room {
    states: 6,
    transitions: 8,
};

/// The bytes of a small plan, bounded or not.
pub fn small_plan(rng: &mut Rng) -> Vec<u8> {
    let tracks = rng.between(1, 3);
    let shape = Shape {
        tracks,
        states: rng.between(tracks + 1, SMALL.states),
        transitions: rng.between(1, SMALL.transitions),
        ..middling(rng)
    };
    let mut plan = sketch(rng, &shape);
    plan.windows.clear();
    plan.rights.truncate(1);
    if rng.chance(40) {
        // A few tries, since not every plan has a place for each fault.
        for _ in 0..4 {
            if unbind(rng, &mut plan, &SMALL) {
                break;
            }
        }
    }
    plan.encode()
}

/// A plan of any sort without its deviations, and without the transitions that
/// lead back in some order of the states.
fn straightened(rng: &mut Rng) -> Records {
    let mut plan = plans::records(rng, MAX_TRACKS);
    let mut ranks: Vec<usize> = (0..plan.states.len()).collect();
    if rng.chance(40) {
        rng.shuffle(&mut ranks);
    }
    let rank = |state: u16| ranks[usize::from(state)];
    let onwards = |x: &Transition| rank(x.source) < rank(x.destination);
    let kept: Vec<bool> = plan.transitions.iter().map(onwards).collect();
    plan.windows.retain(|w| kept[usize::from(w.transition)]);
    for window in &mut plan.windows {
        let before = &kept[..usize::from(window.transition)];
        window.transition = before.iter().filter(|&&kept| kept).count() as u16;
    }
    plan.transitions.retain(onwards);
    plan.transitions.iter_mut().for_each(|x| x.deviation = NONE);
    plan
}

/// One to three tracks with long ways.
fn deep(rng: &mut Rng) -> Shape {
    let tracks = rng.between(1, 3);
    let states = if rng.chance(40) {
        MAX_STATES
    } else {
        rng.between(40, MAX_STATES)
    };
    let most = if rng.chance(30) { MAX_TRANSITIONS } else { 0 };
    Shape {
        tracks,
        states,
        transitions: most,
        joined: if rng.chance(70) { 100 } else { 97 },
        roots: rng.between(0, 60),
        last: 0,
        ..middling(rng)
    }
}

/// Few tracks, most states joined to the next one by several transitions, so
/// that paths are equal.
fn equal(rng: &mut Rng) -> Shape {
    let tracks = rng.between(1, 4);
    let states = rng.between(2 * tracks, 16 * tracks);
    Shape {
        tracks,
        states,
        transitions: (states * rng.between(2, 4)).min(MAX_TRANSITIONS),
        joined: 100,
        near: rng.between(60, 100),
        codeless: rng.pick(&[0, 0, 5, 100]).unwrap_or(0),
        last: 0,
        ..middling(rng)
    }
}

/// Any number of tracks with a few states each.
fn middling(rng: &mut Rng) -> Shape {
    let tracks = match rng.below(100) {
        0..=9 => MAX_TRACKS,
        10..=39 => rng.between(5, 20),
        _ => rng.between(1, 5),
    };
    let states = (tracks * rng.between(2, 7)).min(MAX_STATES);
    let numberings = [
        Numbering::Rising,
        Numbering::Rising,
        Numbering::Falling,
        Numbering::FallingFromFirst,
        Numbering::FallingFromFirst,
        Numbering::Mixed,
        Numbering::Any,
    ];
    Shape {
        tracks,
        states,
        transitions: rng.below(3 * states + 1).min(MAX_TRANSITIONS),
        numbering: rng.pick(&numberings).unwrap_or(Numbering::Any),
        roots: rng.between(5, 70),
        joined: rng.between(30, 100),
        near: rng.between(0, 60),
        codeless: rng.pick(&[0, 10, 30, 60, 90]).unwrap_or(10),
        bare: rng.pick(&[0, 20, 50, 100]).unwrap_or(20),
        last: rng.below(20),
    }
}

fn sketch(rng: &mut Rng, shape: &Shape) -> Records {
    let owners = owners(rng, shape);
    let lines: Vec<Vec<u16>> = (0..shape.tracks)
        .map(|track| line(rng, shape.numbering, &owners, track))
        .collect();
    let mut plan = Records {
        states: states(rng, shape, &owners, &lines),
        ..Records::default()
    };
    add_tracks(rng, shape, &mut plan);
    add_transitions(rng, shape, &lines, &mut plan);
    if rng.chance(50) {
        rng.shuffle(&mut plan.transitions);
    }
    plan.windows = windows(rng, plan.transitions.len());
    plan.rights = rights(rng, &plan.tracks);
    plan
}

/// The track of each state, every track at least once.
fn owners(rng: &mut Rng, shape: &Shape) -> Vec<usize> {
    let others = shape.states - shape.tracks;
    let mut owners: Vec<usize> = (0..shape.tracks).collect();
    owners.extend((0..others).map(|_| rng.below(shape.tracks)));
    if rng.chance(50) {
        rng.shuffle(&mut owners);
    } else {
        owners.sort_unstable();
    }
    owners
}

/// The states of a track in the order of its transitions.
fn line(rng: &mut Rng, numbering: Numbering, owners: &[usize], track: usize) -> Vec<u16> {
    let numbers = 0..owners.len() as u16;
    let own = numbers.filter(|&s| owners[usize::from(s)] == track);
    let mut line: Vec<u16> = own.collect();
    match numbering {
        Numbering::Rising => {}
        Numbering::Falling => line.reverse(),
        Numbering::FallingFromFirst => line[1..].reverse(),
        Numbering::Mixed => rng.shuffle(&mut line[1..]),
        Numbering::Any => rng.shuffle(&mut line),
    }
    line
}

/// The states: the last one of a line is most often final, a track's
/// lowest-numbered one never.
fn states(rng: &mut Rng, shape: &Shape, owners: &[usize], lines: &[Vec<u16>]) -> Vec<State> {
    let mut states = Vec::new();
    for (number, &track) in owners.iter().enumerate() {
        let line = &lines[track];
        let ends = line.last() == Some(&(number as u16));
        let first = line.iter().min() == Some(&(number as u16));
        let chance = if ends { 70 } else { shape.last };
        states.push(State {
            track: track as u16,
            last: u16::from(!first && rng.chance(chance)),
            replacement: 0,
        });
    }
    states
}

/// The tracks, roots or hosted by any state that may host, and replacements.
fn add_tracks(rng: &mut Rng, shape: &Shape, plan: &mut Records) {
    let mut levels: Vec<u32> = Vec::new();
    for track in 0..shape.tracks {
        let fits = |s: &State| {
            let level = levels.get(usize::from(s.track));
            s.last == 0 && level.map_or(false, |&level| level < MAX_HEIGHT)
        };
        let numbers = 0..plan.states.len() as u16;
        let hosts: Vec<u16> = numbers
            .filter(|&s| fits(&plan.states[usize::from(s)]))
            .collect();
        let hosted = track > 0 && !rng.chance(shape.roots);
        let host = rng.pick(&hosts).filter(|_| hosted).unwrap_or(NONE);
        plan.tracks.push(Track { host });
        levels.push(match plan.states.get_mut(usize::from(host)) {
            Some(state) => {
                let bare = rng.chance(shape.bare);
                state.replacement = if bare { 0 } else { rng.code() };
                levels[usize::from(state.track)] + 1
            }
            None => 1,
        });
    }
}

/// Transitions along the lines: most states to the next one, then any.
fn add_transitions(rng: &mut Rng, shape: &Shape, lines: &[Vec<u16>], plan: &mut Records) {
    for line in lines {
        for two in line.windows(2) {
            if rng.chance(shape.joined) {
                add_transition(rng, shape.codeless, plan, (two[0], two[1]));
            }
        }
    }
    for _ in 0..2 * shape.transitions {
        if plan.transitions.len() >= shape.transitions {
            break;
        }
        let line = &lines[rng.below(lines.len())];
        if line.len() > 1 {
            let from = rng.below(line.len() - 1);
            let near = rng.chance(shape.near);
            let most = if near { from + 1 } else { line.len() - 1 };
            let to = rng.between(from + 1, most);
            add_transition(rng, shape.codeless, plan, (line[from], line[to]));
        }
    }
}

/// Adds a transition under an event that its source does not yet have, if the
/// source is not final.
fn add_transition(rng: &mut Rng, codeless: usize, plan: &mut Records, ends: (u16, u16)) {
    let (source, destination) = ends;
    if plan.states[usize::from(source)].last == 1 {
        return;
    }
    let own = plan.transitions.iter().filter(|x| x.source == source);
    let taken: Vec<u16> = own.map(|x| x.event).collect();
    let event = (1..).find(|event| !taken.contains(event)).unwrap_or(1);
    let code = if rng.chance(codeless) { 0 } else { rng.code() };
    plan.transitions.push(Transition {
        source,
        event,
        code,
        deviation: NONE,
        destination,
    });
}

/// Windows in one plan of six.
fn windows(rng: &mut Rng, transitions: usize) -> Vec<Window> {
    let percent = rng.pick(&[0, 0, 0, 0, 0, 20]).unwrap_or(0);
    let near = days::any_day(rng);
    let mut windows = Vec::new();
    for transition in 0..transitions as u16 {
        if rng.chance(percent) {
            let term = days::term(rng, near);
            windows.push(Window { transition, term });
        }
    }
    windows
}

/// Mostly every right for society 1, else those of societies.
fn rights(rng: &mut Rng, tracks: &[Track]) -> Vec<Rights> {
    if rng.chance(30) {
        return societies::rights(rng, tracks, 50);
    }
    let roots = societies::roots(tracks).into_iter();
    let all = |root| Rights {
        society: 1,
        root,
        sum: Rights::ALL,
    };
    roots.map(all).collect()
}

/// Adds a deviation, a cycle or a self-loop; whether there was a place for it.
fn unbind(rng: &mut Rng, plan: &mut Records, room: &Room) -> bool {
    match rng.below(4) {
        0 => deviate(rng, plan),
        _ if plan.transitions.len() + 3 > room.transitions => false,
        1 => lead_back(rng, plan),
        2 => lead_round(rng, plan, room),
        _ => lead_nowhere(rng, plan),
    }
}

/// A deviation for a root's transition with a code.
fn deviate(rng: &mut Rng, plan: &mut Records) -> bool {
    let track = |x: &Transition| plan.states[usize::from(x.source)].track;
    let root = |x: &Transition| plan.tracks[usize::from(track(x))].host == NONE;
    let fits = |&n: &usize| plan.transitions[n].code != 0 && root(&plan.transitions[n]);
    let fitting: Vec<usize> = (0..plan.transitions.len()).filter(fits).collect();
    let number = match rng.pick(&fitting) {
        Some(number) => number,
        None => return false,
    };
    let own = open_states(plan, track(&plan.transitions[number]));
    plan.transitions[number].deviation = rng.pick(&own).unwrap_or(NONE);
    true
}

/// The states of a track that are not final.
fn open_states(plan: &Records, track: u16) -> Vec<u16> {
    let open = |&s: &u16| plan.states[usize::from(s)].last == 0;
    let own = plans::own_states(plan, track).into_iter();
    own.filter(open).collect()
}

/// A cycle that is reached: a way from a first state and a transition back.
fn lead_back(rng: &mut Rng, plan: &mut Records) -> bool {
    let track = rng.below(plan.tracks.len()) as u16;
    let mut way = vec![plans::own_states(plan, track)[0]];
    loop {
        let from = way.last().copied();
        let steps = plan.transitions.iter().filter(|x| Some(x.source) == from);
        let next: Vec<u16> = steps.map(|x| x.destination).collect();
        let open = |&s: &u16| plan.states[usize::from(s)].last == 0 && !way.contains(&s);
        match rng.pick(&next).filter(open) {
            Some(state) => way.push(state),
            None => break,
        }
    }
    if way.len() < 2 {
        return false;
    }
    let from = rng.between(1, way.len() - 1);
    let to = if rng.chance(30) {
        from - 1
    } else {
        rng.below(from)
    };
    add_transition(rng, 30, plan, (way[from], way[to]));
    true
}

/// A cycle that is not reached: two or three new states in a ring, from which
/// one may lead to the others.
fn lead_round(rng: &mut Rng, plan: &mut Records, room: &Room) -> bool {
    let track = rng.below(plan.tracks.len()) as u16;
    let count = rng.between(2, 3);
    let from = plan.states.len();
    if from + count > room.states {
        return false;
    }
    let state = State {
        track,
        last: 0,
        replacement: 0,
    };
    plan.states.resize(from + count, state);
    let state = |n: usize| (from + n % count) as u16;
    for n in 0..count {
        add_transition(rng, 30, plan, (state(n), state(n + 1)));
    }
    let own = plans::own_states(plan, track);
    if rng.chance(50) && plan.transitions.len() < room.transitions {
        let to = own[rng.below(own.len() - count)];
        add_transition(rng, 30, plan, (state(0), to));
    }
    true
}

/// A self-loop of any state that is not final.
fn lead_nowhere(rng: &mut Rng, plan: &mut Records) -> bool {
    let track = rng.below(plan.tracks.len()) as u16;
    let own = open_states(plan, track);
    let state = rng.pick(&own).unwrap_or(0);
    add_transition(rng, 30, plan, (state, state));
    true
}
