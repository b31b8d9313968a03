//! Counts of plans, and of their tracks' largest numbers of entries.

use super::{Coverage, Happening};
use crate::faults::{self, Unbound};
use second::paths::{self, Largest};
use second::plan::{self, Plan};
use second::refusal::Refusal;

/// Equal paths that are many.
const MANY: u64 = 1_000;

/// Transitions of a long path.
const LONG: usize = 100;

impl Coverage {
    /// Counts a plan that the largest numbers of entries are asked of.
    pub fn plan(&mut self, bytes: &[u8]) {
        match plan::read(bytes) {
            Ok(plan) => self.bounds(&plan),
            Err(refusal) => {
                let unbound = refusal == Refusal::Rights && is_unbound_but_for_rights(bytes);
                self.count_if(unbound, Happening::RightsBeforeUnbound);
                self.refused(refusal);
            }
        }
    }

    fn bounds(&mut self, plan: &Plan) {
        for track in 0..plan.track_count() {
            match paths::largest(plan, track) {
                Ok(largest) => self.largest(plan, track, &largest),
                Err(refusal) => {
                    self.unbound(plan);
                    return self.refused(refusal);
                }
            }
        }
    }

    /// Counts why a plan is 29.
    fn unbound(&mut self, plan: &Plan) {
        self.count(match faults::unbound(plan)[..] {
            [Unbound::Deviation] => Happening::UnboundDeviation,
            [Unbound::Reached] => Happening::UnboundReached,
            [Unbound::Unreached] => Happening::UnboundUnreached,
            [Unbound::SelfLoop] => Happening::UnboundSelfLoop,
            _ => Happening::UnboundSeveral,
        });
    }

    /// Counts the figure of a track and its path.
    fn largest(&mut self, plan: &Plan, track: usize, largest: &Largest) {
        let Largest { figure, path } = largest;
        self.count_if(*figure == 0, Happening::LargestZero);
        self.count_if(*figure > 32, Happening::LargestAbove32);
        self.count_if(path.is_empty(), Happening::BestEmpty);
        let entry = path.is_empty() && *figure > 0;
        self.count_if(entry, Happening::BestEmptyWithEntry);
        self.count_if(path.len() >= LONG, Happening::BestLong);
        let equal = best_paths(plan, track);
        self.count_if(equal > 1, Happening::BestSeveral);
        self.count_if(equal >= MANY, Happening::BestThousand);
        let code = |&n: &u16| plan.transitions()[usize::from(n)].code;
        let codeless = path.iter().any(|n| code(n) == 0);
        self.count_if(codeless, Happening::BestCodeless);
        self.states_passed(plan, track, largest);
    }

    /// Counts the states of a path that is not empty.
    fn states_passed(&mut self, plan: &Plan, track: usize, largest: &Largest) {
        let end = |&n: &u16| plan.transitions()[usize::from(n)].destination;
        let passed: Vec<u16> = largest.path.iter().map(end).collect();
        let (last, inner) = match passed.split_last() {
            Some((&last, inner)) => (last, inner),
            None => return,
        };
        let replaced = |s: u16| paths::of_state(plan, s) > 0;
        let first = replaced(plan.first_state(track));
        self.count_if(first, Happening::BestFirstReplacement);
        let inside = inner.iter().any(|&s| replaced(s));
        self.count_if(inside, Happening::BestInnerReplacement);
        let decides = replaced(last) && figure_without(plan, track, last) < largest.figure;
        self.count_if(decides, Happening::BestLastReplacement);
        let falls = passed.len() > 2 && passed.windows(2).all(|two| two[0] > two[1]);
        self.count_if(falls, Happening::BestFalling);
    }
}

/// Whether a plan is 29 once its rights records are left out.
fn is_unbound_but_for_rights(bytes: &[u8]) -> bool {
    let mut records = match plan::read_records(bytes) {
        Ok(records) => records,
        Err(_) => return false,
    };
    records.rights.clear();
    let plan = plan::read(&records.encode());
    plan.map_or(false, |plan| !faults::unbound(&plan).is_empty())
}

/// A track's figure once a state has no replacement.
fn figure_without(plan: &Plan, track: usize, state: u16) -> u16 {
    let mut records = plan.records().clone();
    records.states[usize::from(state)].replacement = 0;
    let plan = plan::read(&records.encode()).expect("a replacement may be 0");
    let largest = paths::largest(&plan, track).expect("bounded as before");
    largest.figure
}

/// How many paths of a track have the most entries.
fn best_paths(plan: &Plan, track: usize) -> u64 {
    let mut known = vec![None; plan.state_count()];
    most_entries(plan, plan.first_state(track), &mut known).1
}

/// The most entries along any path from a state of a bounded plan, and how many
/// paths have so many.
pub fn most_entries(plan: &Plan, state: u16, known: &mut [Option<(u16, u64)>]) -> (u16, u64) {
    if let Some(found) = known[usize::from(state)] {
        return found;
    }
    let own = paths::of_state(plan, state);
    let (mut entries, mut equal) = (own, 1_u64);
    for (x, _) in plan.transitions_from(state) {
        let (onwards, more) = most_entries(plan, x.destination, known);
        let along = own + paths::of_transition(x) + onwards;
        if along > entries {
            (entries, equal) = (along, more);
        } else if along == entries {
            equal = equal.saturating_add(more);
        }
    }
    known[usize::from(state)] = Some((entries, equal));
    (entries, equal)
}
