//! How many entries a plan can ask for: the most along any path from each
//! state, and the transition by which such a path leaves it. Transitions are
//! chained by source; states are visited depth first, each once, and so is each
//! transition. A state come to while it is still visited is a cycle.

use super::plan::{Plan, MAX_STATES, MAX_TRANSITIONS, NONE};
use super::Refused;

/// How far a state has been visited.
#[derive(Clone, Copy, PartialEq, Eq)]
enum Mark {
    Unseen,
    Entered,
    Left,
}

/// What is known of each state of a plan without deviations and cycles. Numbers
/// of transitions are one more each; 0 is none.
pub struct Paths {
    /// The last transition out of each state, which its chain starts with.
    chain: [u16; MAX_STATES],
    /// The next of the same chain.
    next: [u16; MAX_TRANSITIONS],
    mark: [Mark; MAX_STATES],
    /// The most entries along any path from a state, its own included.
    most: [u16; MAX_STATES],
    /// The transition that such a path starts with.
    first: [u16; MAX_STATES],
}

impl Paths {
    /// Those of an accepted plan; 29.
    #[inline(always)]
    pub fn of(plan: &Plan) -> Result<Paths, Refused> {
        let mut paths = Paths {
            chain: [0; MAX_STATES],
            next: [0; MAX_TRANSITIONS],
            mark: [Mark::Unseen; MAX_STATES],
            most: [0; MAX_STATES],
            first: [0; MAX_STATES],
        };
        let bounded = paths.chain_transitions(plan)
            && (0..plan.states.min(MAX_STATES))
                .all(|state| paths.mark[state] == Mark::Left || paths.visit(plan, state));
        match bounded {
            true => Ok(paths),
            false => Err(Refused(29)),
        }
    }

    /// Puts each transition into the chain of its source; whether none has a
    /// deviation.
    #[inline(always)]
    fn chain_transitions(&mut self, plan: &Plan) -> bool {
        let mut without = true;
        for number in 1..=plan.transition_count().min(MAX_TRANSITIONS) {
            let transition = plan.transition(number as u16);
            without &= transition.deviation == NONE;
            let source = usize::from(transition.source) % MAX_STATES;
            self.next[number - 1] = self.chain[source];
            self.chain[source] = number as u16;
        }
        without
    }

    /// Visits a state not seen before, and what it leads to; whether there is no
    /// cycle.
    fn visit(&mut self, plan: &Plan, state: usize) -> bool {
        self.mark[state] = Mark::Entered;
        let (mut most, mut first) = (0, 0);
        let mut number = self.chain[state];
        while number != 0 {
            let transition = plan.transition(number);
            let to = usize::from(transition.destination) % MAX_STATES;
            let open = match self.mark[to] {
                Mark::Left => true,
                Mark::Entered => false,
                Mark::Unseen => self.visit(plan, to),
            };
            if !open {
                return false;
            }
            let entries = self.most[to] + u16::from(transition.code != 0);
            if entries > most {
                (most, first) = (entries, number);
            }
            number = self.next[(usize::from(number) - 1) % MAX_TRANSITIONS];
        }
        // Only hosting states of an accepted plan have a replacement.
        let own = u16::from(plan.state(state as u16).replacement != 0);
        (self.most[state], self.first[state]) = (most + own, first);
        self.mark[state] = Mark::Left;
        true
    }

    /// The most entries that a track can ask for.
    #[inline(always)]
    pub fn most(&self, plan: &Plan, track: u16) -> u16 {
        self.most[first_state(plan, track)]
    }

    /// The transitions of such a path, in order.
    #[inline(always)]
    pub fn shown<'a>(&'a self, plan: &'a Plan<'a>, track: u16) -> impl Iterator<Item = u16> + 'a {
        let mut number = self.first[first_state(plan, track)];
        std::iter::from_fn(move || {
            let shown = number.checked_sub(1)?;
            let to = plan.transition(number).destination;
            number = self.first[usize::from(to) % MAX_STATES];
            Some(shown)
        })
    }
}

#[inline(always)]
fn first_state(plan: &Plan, track: u16) -> usize {
    usize::from(plan.first[usize::from(track) % plan.first.len()]) % MAX_STATES
}
