//! Plans of a chosen size. Unless said, one society has every right in them.

use second::plan::{Records, Rights, Transition, NONE};
use testing::generate::rng::Rng;
use testing::generate::societies;
use testing::samples::{every_right, rights, state, step, track, window};

/// In which order the steps out of one state stand in the plan.
#[derive(Clone, Copy, Debug, PartialEq, Eq)]
pub enum Order {
    Rising,
    Falling,
    Shuffled,
}

impl Order {
    pub const ALL: [(Order, &'static str); 3] = [
        (Order::Rising, "rising"),
        (Order::Falling, "falling"),
        (Order::Shuffled, "shuffled"),
    ];
}

/// A tree of tracks, two hosted by each first state, with so many states and
/// transitions in all.
pub fn tree(tracks: usize, states: usize, transitions: usize) -> Records {
    let mut plan = roots(tracks, states, transitions);
    for number in 1..tracks {
        let host = (number - 1) / 2 * (states / tracks);
        plan.tracks[number] = track(host as u16);
    }
    led(plan)
}

/// Adds a root with so many states, the last of them final.
fn add_root(plan: &mut Records, number: usize, states: usize) {
    plan.tracks.push(track(NONE));
    for place in 0..states {
        let last = u16::from(place == states - 1);
        plan.states.push(state(number as u16, last, 0));
    }
}

/// Roots, each with as many states, the last of them final, and with as many
/// transitions: on event 1 from each state to the next one and back to the
/// first, then the same on event 2, and so on.
pub fn roots(tracks: usize, states: usize, transitions: usize) -> Records {
    let (own, steps) = (states / tracks, transitions / tracks);
    let mut plan = Records::default();
    for number in 0..tracks {
        let first = number * own;
        add_root(&mut plan, number, own);
        let around = |place: usize| (first + place % (own - 1)) as u16;
        plan.transitions.extend((0..steps).map(|place| {
            let event = 1 + place / (own - 1);
            step(around(place), event as u16, 7, around(place + 1))
        }));
    }
    led(plan)
}

/// Roots, each with as many states in a row, the last of them final, and with as
/// many transitions: on event 1 from each state to the next one, then the same on
/// event 2, and so on. Every other one has a code. There is no cycle.
pub fn rows(tracks: usize, states: usize, transitions: usize) -> Records {
    let (own, steps) = (states / tracks, transitions / tracks);
    let mut plan = Records::default();
    for number in 0..tracks {
        let first = number * own;
        add_root(&mut plan, number, own);
        plan.transitions.extend((0..steps).map(|place| {
            let (event, source) = (1 + place / (own - 1), first + place % (own - 1));
            let code = 7 * (place % 2) as u16;
            step(source as u16, event as u16, code, source as u16 + 1)
        }));
    }
    led(plan)
}

/// The plan with its last transition leading back to the first one's source, so
/// that there is a cycle if it is of one track and as deep as may be.
pub fn closed(mut plan: Records) -> Records {
    let first = plan.transitions[0].source;
    if let Some(last) = plan.transitions.last_mut() {
        last.destination = first;
    }
    plan
}

/// A root with so many steps out of its first state and back to it.
pub fn fan(steps: usize, order: Order) -> Records {
    let mut transitions: Vec<Transition> = (1..=steps as u16).map(|e| step(0, e, 7, 0)).collect();
    match order {
        Order::Rising => {}
        Order::Falling => transitions.reverse(),
        Order::Shuffled => Rng::new(1).shuffle(&mut transitions),
    }
    Records {
        tracks: vec![track(NONE)],
        states: vec![state(0, 0, 0), state(0, 1, 0)],
        transitions,
        windows: vec![],
        rights: every_right(&[0]),
    }
}

/// The plan with windows for so many of its transitions, in any order. Each has
/// a term of its own, in which day 0 lies.
pub fn windowed(mut plan: Records, windows: usize) -> Records {
    let mut rng = Rng::new(2);
    let mut numbers: Vec<u16> = (0..plan.transitions.len() as u16).collect();
    rng.shuffle(&mut numbers);
    let term = |number: u16| {
        let days = 30 * (1 + i32::from(number));
        window(number, -days, days)
    };
    plan.windows = numbers.into_iter().take(windows).map(term).collect();
    plan
}

/// The plan with every right of one society over each of its roots, and no
/// other.
pub fn led(mut plan: Records) -> Records {
    plan.rights = every_right(&societies::roots(&plan.tracks));
    plan
}

/// Roots over which each of several societies has rights, if there are so many.
const HELD: usize = 8;

/// The plan with so many rights records, in any order. One society after the
/// other, from 1 on, has every right over the next eight roots, or over all of
/// fewer; after the last root comes the first again.
pub fn shared(mut plan: Records, records: usize) -> Records {
    let roots = societies::roots(&plan.tracks);
    let held = HELD.min(roots.len());
    let record = |number: usize| {
        let society = 1 + number / held;
        rights(society as u16, roots[number % roots.len()], Rights::ALL)
    };
    plan.rights = (0..records).map(record).collect();
    Rng::new(3).shuffle(&mut plan.rights);
    plan
}

/// Two roots, whose link ends half withdrawn or not at all. Root 0 has no end.
/// Event 1 gives each root an entry, event 2 gives none, event 3 gives root 0
/// another, and event 4 ends root 1. The first entry of root 1, when fired,
/// sends it forward again, so that it may end while root 0 is taken back.
pub fn two_roots() -> Records {
    let deviating = Transition {
        deviation: 3,
        ..step(2, 1, 60, 3)
    };
    Records {
        tracks: vec![track(NONE); 2],
        states: vec![
            state(0, 0, 0),
            state(0, 0, 0),
            state(1, 0, 0),
            state(1, 0, 0),
            state(1, 1, 0),
        ],
        transitions: vec![
            step(0, 1, 50, 1),
            step(1, 2, 0, 1),
            step(1, 3, 51, 1),
            deviating,
            step(3, 2, 0, 3),
            step(3, 4, 61, 4),
        ],
        windows: vec![],
        rights: every_right(&[0, 1]),
    }
}
