//! Accepted plans: nested and parallel scopes, several roots, replacements,
//! deviations, self loops, hosting first states, scopes that reopen, windows,
//! rights.

use super::days;
use super::rng::Rng;
use super::societies;
use second::plan::{
    Records, Rights, State, Track, Transition, Window, MAX_HEIGHT, MAX_STATES, MAX_TRACKS,
    MAX_TRANSITIONS, NONE,
};

/// What a plan is to look like.
struct Taste {
    tracks: usize,
    states: usize,
    transitions: usize,
    /// The events its transitions draw from.
    events: Vec<u16>,
    /// Percent of tracks that are roots.
    roots: usize,
    /// Percent of hosted tracks put into the scope of the track before.
    parallel: usize,
    /// Percent of hosted tracks put under the track before.
    deep: usize,
    /// The greatest height of a track.
    height: u32,
    /// Percent of other states that are final.
    last: usize,
    /// Percent of transitions with code 0.
    codeless: usize,
    /// Percent of the roots' transitions with a code that deviate.
    deviating: usize,
    /// Percent of transitions with a window.
    windows: usize,
    /// Percent of plans in which one society has every right.
    led: usize,
}

/// The records of an accepted plan of at most `most_tracks` tracks.
pub fn records(rng: &mut Rng, most_tracks: usize) -> Records {
    let taste = taste(rng, most_tracks);
    sketch(rng, &taste)
}

/// The records of an accepted plan of exactly so many tracks.
pub fn records_of(rng: &mut Rng, tracks: usize) -> Records {
    let taste = taste_of(rng, tracks);
    sketch(rng, &taste)
}

/// The records of an accepted plan of at most `most_tracks` tracks, most often with
/// several roots whose ways are short and deviate.
pub fn linked_records(rng: &mut Rng, most_tracks: usize) -> Records {
    several_roots(rng, |rng| linked_taste(rng, most_tracks))
}

/// The same with two or three tracks of about two states each.
pub fn small_linked_records(rng: &mut Rng, most_tracks: usize) -> Records {
    several_roots(rng, |rng| {
        let mut taste = linked_taste(rng, most_tracks.min(3));
        taste.states = 2 * taste.tracks;
        taste.transitions = rng.between(taste.tracks, 2 * taste.tracks);
        taste
    })
}

/// A plan of several roots, if a few tries find one.
fn several_roots(rng: &mut Rng, taste: impl Fn(&mut Rng) -> Taste) -> Records {
    let mut tries = 4;
    loop {
        let taste = taste(rng);
        let records = sketch(rng, &taste);
        let roots = records.tracks.iter().filter(|t| t.host == NONE).count();
        tries -= 1;
        if roots > 1 || tries == 0 {
            return records;
        }
    }
}

/// Records good but for the height of a track, which mostly exceeds 8 where
/// the tracks allowed leave room for it.
pub fn tall_records(rng: &mut Rng, most_tracks: usize) -> Records {
    let mut taste = taste(rng, most_tracks);
    let most = most_tracks.clamp(1, MAX_TRACKS);
    taste.tracks = rng.between(most.min(9), most);
    taste.states = state_total(rng, taste.tracks, false);
    taste.roots = 3;
    taste.parallel = 10;
    taste.deep = 90;
    taste.height = MAX_HEIGHT + rng.between(1, 4) as u32;
    sketch(rng, &taste)
}

fn sketch(rng: &mut Rng, taste: &Taste) -> Records {
    let mut plan = Records::default();
    plan.states = states(rng, taste);
    plan.tracks = tracks(rng, taste, &plan.states);
    give_replacements(rng, &mut plan);
    let mut layout = Layout::of(&plan, &taste.events);
    add_paths(rng, taste, &mut layout, &mut plan);
    add_others(rng, taste, &mut layout, &mut plan);
    if rng.chance(30) {
        rng.shuffle(&mut plan.transitions);
    }
    plan.windows = windows(rng, taste, plan.transitions.len());
    plan.rights = societies::rights(rng, &plan.tracks, taste.led);
    plan
}

/// Windows near one day, mostly in the order of their transitions.
fn windows(rng: &mut Rng, taste: &Taste, transitions: usize) -> Vec<Window> {
    let near = days::any_day(rng);
    let mut windows = Vec::new();
    for transition in 0..transitions as u16 {
        if rng.chance(taste.windows) {
            let term = days::term(rng, near);
            windows.push(Window { transition, term });
        }
    }
    if rng.chance(30) {
        rng.shuffle(&mut windows);
    }
    windows
}

/// The bytes of an accepted plan of at most `most_tracks` tracks.
pub fn bytes(rng: &mut Rng, most_tracks: usize) -> Vec<u8> {
    records(rng, most_tracks).encode()
}

/// A chain of tracks, each hosted by the first state of the one before: its
/// height is its number of tracks. 9 tracks or more are refused as 16. Society
/// 1 has every right.
pub fn chain(tracks: usize) -> Records {
    let state = |n: usize| State {
        track: (n / 2) as u16,
        last: (n % 2) as u16,
        replacement: 0,
    };
    let host = |t: usize| if t == 0 { NONE } else { 2 * (t as u16 - 1) };
    let step = |t: usize| Transition {
        source: 2 * t as u16,
        event: 1 + t as u16,
        code: 50 + t as u16,
        deviation: NONE,
        destination: 2 * t as u16 + 1,
    };
    Records {
        tracks: (0..tracks).map(|t| Track { host: host(t) }).collect(),
        states: (0..2 * tracks).map(state).collect(),
        transitions: (0..tracks).map(step).collect(),
        windows: Vec::new(),
        rights: vec![Rights {
            society: 1,
            root: 0,
            sum: Rights::ALL,
        }],
    }
}

fn taste(rng: &mut Rng, most_tracks: usize) -> Taste {
    if rng.chance(15) {
        return linked_taste(rng, most_tracks);
    }
    let most = most_tracks.clamp(1, MAX_TRACKS);
    let (low, high) = track_range(rng);
    let tracks = rng.between(low.min(most), high.min(most));
    taste_of(rng, tracks)
}

fn taste_of(rng: &mut Rng, tracks: usize) -> Taste {
    let full = tracks == MAX_TRACKS && rng.chance(40);
    Taste {
        tracks,
        states: state_total(rng, tracks, full),
        transitions: transition_total(rng, tracks, full),
        events: events(rng, full),
        roots: if rng.chance(50) { 8 } else { rng.below(50) },
        parallel: rng.between(10, 60),
        deep: rng.between(5, 60),
        height: MAX_HEIGHT,
        last: rng.between(5, 40),
        codeless: if rng.chance(30) { 40 } else { 12 },
        deviating: 25,
        windows: rng.pick(&[0, 0, 0, 0, 8, 25, 50, 100]).unwrap_or(0),
        led: 76,
    }
}

/// Two to seven tracks, about half of them roots, with few states each.
fn linked_taste(rng: &mut Rng, most_tracks: usize) -> Taste {
    let most = most_tracks.clamp(1, MAX_TRACKS);
    let tracks = rng.between(most.min(2), most.min(7));
    let extra: usize = (0..tracks).map(|_| rng.between(1, 2)).sum();
    Taste {
        tracks,
        states: tracks + extra,
        transitions: rng.between(2 * tracks, 5 * tracks),
        roots: rng.between(25, 80),
        parallel: rng.between(5, 40),
        deep: rng.between(30, 90),
        last: rng.between(10, 50),
        deviating: rng.between(30, 90),
        led: 45,
        ..taste_of(rng, tracks)
    }
}

/// Tiny, small, middling or large.
fn track_range(rng: &mut Rng) -> (usize, usize) {
    match rng.below(100) {
        0..=34 => (1, 3),
        35..=74 => (2, 6),
        75..=91 => (4, 14),
        92..=96 => (9, 32),
        _ => (32, 32),
    }
}

fn state_total(rng: &mut Rng, tracks: usize, full: bool) -> usize {
    if full {
        return MAX_STATES;
    }
    let most = if rng.chance(80) { 3 } else { 6 };
    let extra: usize = (0..tracks).map(|_| rng.between(1, most)).sum();
    (tracks + extra).min(MAX_STATES)
}

fn transition_total(rng: &mut Rng, tracks: usize, full: bool) -> usize {
    if full {
        return MAX_TRANSITIONS;
    }
    rng.below(8 * tracks + 4).min(MAX_TRANSITIONS)
}

fn events(rng: &mut Rng, full: bool) -> Vec<u16> {
    let most = if rng.chance(60) { 4 } else { 12 };
    let count = if full { 16 } else { rng.between(1, most) };
    let mut events: Vec<u16> = (0..count).map(|n| event_number(rng, n)).collect();
    events.sort_unstable();
    events.dedup();
    events
}

fn event_number(rng: &mut Rng, n: usize) -> u16 {
    match rng.below(100) {
        0..=1 => 65535,
        2..=4 => rng.word().max(1),
        _ => n as u16 + 1,
    }
}

/// States in file order; a track's lowest-numbered one is not final, its
/// highest-numbered one mostly is.
fn states(rng: &mut Rng, taste: &Taste) -> Vec<State> {
    let owners = owners(rng, taste);
    let mut first = vec![usize::MAX; taste.tracks];
    let mut highest = vec![0; taste.tracks];
    for (number, &track) in owners.iter().enumerate() {
        first[track] = first[track].min(number);
        highest[track] = number;
    }
    let state = |(number, &track): (usize, &usize)| {
        let chance = if number == highest[track] {
            92
        } else {
            taste.last
        };
        State {
            track: track as u16,
            last: u16::from(number != first[track] && rng.chance(chance)),
            replacement: 0,
        }
    };
    owners.iter().enumerate().map(state).collect()
}

/// The track of each state, every track at least once.
fn owners(rng: &mut Rng, taste: &Taste) -> Vec<usize> {
    let mut owners: Vec<usize> = (0..taste.tracks).collect();
    while owners.len() < taste.states {
        let even = owners.len() < 2 * taste.tracks && rng.chance(95);
        owners.push(if even {
            owners.len() % taste.tracks
        } else {
            rng.below(taste.tracks)
        });
    }
    if rng.chance(50) {
        rng.shuffle(&mut owners);
    } else {
        owners.sort_unstable();
    }
    owners
}

fn tracks(rng: &mut Rng, taste: &Taste, states: &[State]) -> Vec<Track> {
    let mut tracks = Vec::new();
    let mut levels = Vec::new();
    for t in 0..taste.tracks {
        let host = if rng.chance(taste.roots) {
            NONE
        } else {
            host(rng, taste, states, &tracks, &levels)
        };
        let level = match states.get(usize::from(host)) {
            Some(state) => levels[usize::from(state.track)] + 1,
            None => 1,
        };
        debug_assert!(t == levels.len() && level <= taste.height);
        tracks.push(Track { host });
        levels.push(level);
    }
    tracks
}

/// A host for the next track: the scope of the track before, a state of the
/// track before, or any; a root where none fits.
fn host(rng: &mut Rng, taste: &Taste, states: &[State], tracks: &[Track], levels: &[u32]) -> u16 {
    let before = match tracks.last() {
        Some(before) => before,
        None => return NONE,
    };
    if before.host != NONE && rng.chance(taste.parallel) {
        return before.host;
    }
    let deep = rng.chance(taste.deep);
    let fits = |s: &State| {
        let track = usize::from(s.track);
        let lower = track < tracks.len() && (!deep || track + 1 == tracks.len());
        lower && s.last == 0 && levels[track] < taste.height
    };
    let fitting: Vec<u16> = (0..states.len() as u16)
        .filter(|&n| fits(&states[usize::from(n)]))
        .collect();
    rng.pick(&fitting).unwrap_or(NONE)
}

fn give_replacements(rng: &mut Rng, plan: &mut Records) {
    for track in &plan.tracks {
        if let Some(state) = plan.states.get_mut(usize::from(track.host)) {
            state.replacement = if rng.chance(30) { 0 } else { rng.code() };
        }
    }
}

/// What transitions are drawn from.
struct Layout {
    /// The states of each track.
    own: Vec<Vec<u16>>,
    /// Those of them that are not final.
    open: Vec<Vec<u16>>,
    /// The events that each state has no transition for.
    free: Vec<Vec<u16>>,
}

impl Layout {
    fn of(plan: &Records, events: &[u16]) -> Layout {
        let mut own = vec![Vec::new(); plan.tracks.len()];
        let mut open = own.clone();
        for (number, state) in plan.states.iter().enumerate() {
            let track = usize::from(state.track);
            own[track].push(number as u16);
            if state.last == 0 {
                open[track].push(number as u16);
            }
        }
        let free = vec![events.to_vec(); plan.states.len()];
        Layout { own, open, free }
    }

    /// Takes an event that the source has no transition for.
    fn take_event(&mut self, rng: &mut Rng, source: u16) -> Option<u16> {
        let free = &mut self.free[usize::from(source)];
        if free.is_empty() {
            return None;
        }
        Some(free.swap_remove(rng.below(free.len())))
    }
}

/// A way into each state that is not its track's first.
fn add_paths(rng: &mut Rng, taste: &Taste, layout: &mut Layout, plan: &mut Records) {
    for track in 0..plan.tracks.len() {
        for at in 1..layout.own[track].len() {
            let state = layout.own[track][at];
            let open = &layout.open[track];
            let lower = open.partition_point(|&s| s < state);
            let near = rng.chance(70).then(|| open[lower - 1]);
            let source = near.or_else(|| rng.pick(&open[..lower]));
            add_transition(rng, taste, layout, plan, (source.unwrap_or(0), state));
        }
    }
}

/// Further transitions, self loops and ways back among them.
fn add_others(rng: &mut Rng, taste: &Taste, layout: &mut Layout, plan: &mut Records) {
    for _ in 0..8 * taste.transitions {
        if plan.transitions.len() >= taste.transitions {
            return;
        }
        let track = rng.below(plan.tracks.len());
        if let Some(source) = rng.pick(&layout.open[track]) {
            let other = rng.pick(&layout.own[track]).unwrap_or(source);
            let destination = if rng.chance(35) { source } else { other };
            add_transition(rng, taste, layout, plan, (source, destination));
        }
    }
}

/// Adds a transition under an event that its source does not yet have.
fn add_transition(
    rng: &mut Rng,
    taste: &Taste,
    layout: &mut Layout,
    plan: &mut Records,
    (source, destination): (u16, u16),
) {
    let event = match layout.take_event(rng, source) {
        Some(event) => event,
        None => return,
    };
    let code = if rng.chance(taste.codeless) {
        0
    } else {
        rng.code()
    };
    let deviates = code != 0 && rng.chance(taste.deviating);
    let deviation = if deviates {
        deviation(rng, layout, plan, source)
    } else {
        NONE
    };
    plan.transitions.push(Transition {
        source,
        event,
        code,
        deviation,
        destination,
    });
}

/// A deviation for a root's transition, often into a hosting state; none in a
/// hosted track.
fn deviation(rng: &mut Rng, layout: &Layout, plan: &Records, source: u16) -> u16 {
    let track = usize::from(plan.states[usize::from(source)].track);
    if plan.tracks[track].host != NONE {
        return NONE;
    }
    let open = &layout.open[track];
    let hosting = |s: &u16| plan.tracks.iter().any(|t| t.host == *s);
    let hosts: Vec<u16> = open.iter().copied().filter(hosting).collect();
    let host = rng.pick(&hosts).filter(|_| rng.chance(50));
    host.or_else(|| rng.pick(open)).unwrap_or(NONE)
}

/// The state numbers of a track.
pub fn own_states(plan: &Records, track: u16) -> Vec<u16> {
    let numbers = 0..plan.states.len() as u16;
    numbers
        .filter(|&s| plan.states[usize::from(s)].track == track)
        .collect()
}
