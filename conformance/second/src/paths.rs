//! How many entries a plan can ask for: for a track the largest number of
//! entries along any path from its first state, and such a path. Refusal 29.

use crate::plan::{Plan, Transition, NONE};
use crate::refusal::{demand, Refusal};

/// The largest number of entries along any path of a track, and such a path:
/// transition numbers in order.
#[derive(Clone, Debug, Default, PartialEq, Eq)]
pub struct Largest {
    pub figure: u16,
    pub path: Vec<u16>,
}

/// Of a track; 29 where the plan has a deviation or a cycle. A track that does
/// not exist has no entry and no path.
pub fn largest(plan: &Plan, track: usize) -> Result<Largest, Refusal> {
    let bounded = !has_deviation(plan) && !has_cycle(plan);
    demand(bounded, Refusal::Unbounded)?;
    if track >= plan.track_count() {
        return Ok(Largest::default());
    }
    let (first, ways) = (plan.first_state(track), ways(plan));
    Ok(Largest {
        figure: ways[usize::from(first)].entries,
        path: follow(plan, &ways, first),
    })
}

/// Whether any transition has a deviation.
pub fn has_deviation(plan: &Plan) -> bool {
    plan.transitions().iter().any(|x| x.deviation != NONE)
}

/// Whether transitions lead from some state back to it, reached or not. States
/// are taken away that no transition leaves for one that is left. Where nothing
/// more is taken away, each state left leads to another one left, and so round.
pub fn has_cycle(plan: &Plan) -> bool {
    let mut left = vec![true; plan.state_count()];
    loop {
        let mut kept = vec![false; plan.state_count()];
        for x in plan.transitions() {
            kept[usize::from(x.source)] |= left[usize::from(x.destination)];
        }
        if kept == left {
            return left.contains(&true);
        }
        left = kept;
    }
}

/// The most entries along any path from a state, the state's own included, and
/// the transition that such a path starts with; none of the empty path.
#[derive(Clone, Copy)]
struct Way {
    entries: u16,
    first: Option<u16>,
}

/// The way from each state of a plan without cycles. All transitions are gone
/// over until nothing grows; each round finds paths of one transition more.
fn ways(plan: &Plan) -> Vec<Way> {
    let alone = |s| Way {
        entries: of_state(plan, s),
        first: None,
    };
    let mut ways: Vec<Way> = plan.state_numbers().map(alone).collect();
    let mut grows = true;
    while grows {
        grows = false;
        for (number, x) in plan.transitions().iter().enumerate() {
            let onwards = ways[usize::from(x.destination)].entries;
            let entries = of_state(plan, x.source) + of_transition(x) + onwards;
            let way = &mut ways[usize::from(x.source)];
            if entries > way.entries {
                let first = Some(number as u16);
                *way = Way { entries, first };
                grows = true;
            }
        }
    }
    ways
}

/// The transitions that the ways take from a state on.
fn follow(plan: &Plan, ways: &[Way], mut state: u16) -> Vec<u16> {
    let mut path = Vec::new();
    while let Some(number) = ways[usize::from(state)].first {
        path.push(number);
        state = plan.transitions()[usize::from(number)].destination;
    }
    path
}

/// One for a hosting state with a replacement.
pub fn of_state(plan: &Plan, state: u16) -> u16 {
    u16::from(plan.scope(state) != 0 && plan.replacement(state) != 0)
}

/// One for a transition with a code.
pub fn of_transition(transition: &Transition) -> u16 {
    u16::from(transition.code != 0)
}

/// The entries along a path from a track's first state; `None` where it is no
/// such path, or there is no such track.
pub fn entries_along(plan: &Plan, track: usize, path: &[u16]) -> Option<u16> {
    if track >= plan.track_count() {
        return None;
    }
    let mut state = plan.first_state(track);
    let mut entries = of_state(plan, state);
    for &number in path {
        let transition = plan.transitions().get(usize::from(number))?;
        if transition.source != state {
            return None;
        }
        state = transition.destination;
        entries += of_transition(transition) + of_state(plan, state);
    }
    Some(entries)
}
