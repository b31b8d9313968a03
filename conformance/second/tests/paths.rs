//! How many entries a plan can ask for: what is counted along a path, what of
//! several tracks, and refusal 29.

mod common;

use common::*;
use second::journal;
use second::manager::{self, Answer};
use second::paths;
use second::plan::{self, Plan, Records, Transition, NONE};
use second::refusal::Refusal;

/// The figure of a track and a path with so many entries, which is one.
fn shown(plan: &Records, track: u16) -> (u16, Vec<u16>) {
    let bytes = plan.encode();
    match manager::largest(&bytes, track) {
        Answer::Done(largest) => {
            let plan = plan::read(&bytes).expect("accepted");
            let along = paths::entries_along(&plan, usize::from(track), &largest.path);
            assert_eq!(along, Some(largest.figure));
            (largest.figure, largest.path)
        }
        Answer::Refused(refusal) => panic!("{refusal:?}"),
    }
}

fn figure(plan: &Records, track: u16) -> u16 {
    shown(plan, track).0
}

/// The refusal of the call, 0 where it is none; the same for every track.
fn refusal(bytes: &[u8]) -> u8 {
    let number = |track| match manager::largest(bytes, track) {
        Answer::Done(_) => 0,
        Answer::Refused(refusal) => refusal.number(),
    };
    let first = number(0);
    assert!([1, 2, 31, 32, 33, 65_535]
        .iter()
        .all(|&t| number(t) == first));
    first
}

/// The refusal of the sample plan after a change to its records.
fn of_sample(change: impl FnOnce(&mut Records)) -> u8 {
    let mut plan = sample_records();
    change(&mut plan);
    refusal(&plan.encode())
}

/// One root with so many states, none of them final, and these transitions as
/// source, code and destination.
fn root(states: u16, transitions: &[(u16, u16, u16)]) -> Records {
    let event = |at: usize| at as u16 + 1;
    let numbered = transitions.iter().enumerate();
    let transitions = numbered.map(|(at, &(source, code, to))| step(source, event(at), code, to));
    Records {
        tracks: vec![track(NONE)],
        states: (0..states).map(|_| state(0, 0, 0)).collect(),
        transitions: transitions.collect(),
        windows: vec![],
        rights: vec![],
    }
}

/// The same with a track for each of these states to host, and replacements.
fn hosting(states: u16, transitions: &[(u16, u16, u16)], hosts: &[(u16, u16)]) -> Records {
    let mut plan = root(states, transitions);
    for &(host, replacement) in hosts {
        plan.states[usize::from(host)].replacement = replacement;
        let hosted = plan.tracks.len() as u16;
        plan.tracks.push(track(host));
        plan.states.push(state(hosted, 0, 0));
    }
    plan
}

#[test]
fn the_sample_s_tracks_can_hold_2_1_and_2() {
    let plan = sample_records();
    assert_eq!(shown(&plan, 0).0, 2);
    assert_eq!(shown(&plan, 1), (1, vec![2]));
    assert_eq!(shown(&plan, 2), (2, vec![3, 4]));
}

#[test]
fn a_transition_counts_where_it_has_a_code() {
    assert_eq!(figure(&root(3, &[(0, 5, 1), (1, 6, 2)]), 0), 2);
    assert_eq!(figure(&root(3, &[(0, 0, 1), (1, 6, 2)]), 0), 1);
    assert_eq!(figure(&root(3, &[(0, 5, 1), (1, 0, 2)]), 0), 1);
    assert_eq!(figure(&root(3, &[(0, 0, 1), (1, 0, 2)]), 0), 0);
    assert_eq!(figure(&root(2, &[(0, 65_535, 1)]), 0), 1);
}

#[test]
fn a_path_goes_on_over_a_transition_without_a_code() {
    let plan = root(4, &[(0, 0, 1), (1, 0, 2), (2, 7, 3)]);
    assert_eq!(shown(&plan, 0), (1, vec![0, 1, 2]));
}

#[test]
fn the_empty_path_counts_the_first_state_s_replacement() {
    assert_eq!(shown(&root(1, &[]), 0), (0, vec![]));
    assert_eq!(shown(&hosting(1, &[], &[(0, 90)]), 0), (1, vec![]));
    assert_eq!(shown(&hosting(1, &[], &[(0, 0)]), 0), (0, vec![]));
}

#[test]
fn replacements_of_first_middle_and_last_state_count() {
    let steps = [(0, 5, 1), (1, 6, 2)];
    assert_eq!(figure(&hosting(3, &steps, &[(0, 90)]), 0), 3);
    assert_eq!(figure(&hosting(3, &steps, &[(1, 90)]), 0), 3);
    assert_eq!(figure(&hosting(3, &steps, &[(2, 90)]), 0), 3);
    let all = hosting(3, &steps, &[(0, 90), (1, 91), (2, 92)]);
    assert_eq!(shown(&all, 0), (5, vec![0, 1]));
    let none = hosting(3, &steps, &[(0, 0), (1, 0), (2, 0)]);
    assert_eq!(figure(&none, 0), 2);
}

#[test]
fn the_last_state_s_replacement_decides_between_paths() {
    let forks = [(0, 5, 1), (0, 5, 2)];
    assert_eq!(shown(&hosting(3, &forks, &[(1, 90)]), 0), (2, vec![0]));
    assert_eq!(shown(&hosting(3, &forks, &[(2, 90)]), 0), (2, vec![1]));
}

#[test]
fn a_state_with_two_hosted_tracks_counts_once() {
    let plan = hosting(2, &[(0, 5, 1)], &[(1, 90), (1, 90)]);
    assert_eq!(figure(&plan, 0), 2);
}

#[test]
fn what_stands_under_a_hosting_state_counts_in_its_own_track() {
    let mut plan = hosting(2, &[(0, 5, 1)], &[(1, 90)]);
    plan.states.extend([state(1, 0, 0), state(1, 1, 0)]);
    plan.transitions
        .extend([step(2, 1, 7, 3), step(3, 1, 8, 4)]);
    assert_eq!(figure(&plan, 0), 2);
    assert_eq!(shown(&plan, 1), (2, vec![1, 2]));
}

#[test]
fn only_paths_from_the_first_state_count() {
    // State 0 is the first one; what leads to it is on none of its paths.
    let plan = root(4, &[(1, 5, 2), (2, 5, 3), (3, 5, 0)]);
    assert_eq!(shown(&plan, 0), (0, vec![]));
    let plan = root(4, &[(3, 5, 2), (2, 5, 1), (0, 5, 2)]);
    assert_eq!(shown(&plan, 0), (2, vec![2, 1]));
}

#[test]
fn a_longer_path_with_fewer_entries_is_not_shown() {
    let plan = root(4, &[(0, 0, 1), (1, 0, 2), (2, 5, 3), (0, 5, 2)]);
    assert_eq!(shown(&plan, 0), (2, vec![3, 2]));
}

#[test]
fn a_final_state_may_be_the_last_one() {
    let mut plan = root(2, &[(0, 5, 1)]);
    plan.states[1].last = 1;
    assert_eq!(shown(&plan, 0), (1, vec![0]));
}

#[test]
fn several_roots_and_states_out_of_order() {
    let plan = Records {
        tracks: vec![track(NONE), track(NONE), track(4)],
        states: [1, 2, 0, 0, 1, 2, 1].map(|t| state(t, 0, 0)).to_vec(),
        transitions: vec![
            step(6, 1, 5, 4),
            step(0, 1, 5, 6),
            step(2, 1, 0, 3),
            step(1, 1, 9, 5),
        ],
        windows: vec![],
        rights: every_right(&[0, 1]),
    };
    assert_eq!(shown(&plan, 0).0, 0);
    assert_eq!(shown(&plan, 1), (2, vec![1, 0]));
    assert_eq!(shown(&plan, 2), (1, vec![3]));
}

#[test]
fn a_track_that_does_not_exist_has_no_entry_and_no_path() {
    for track in [3, 31, 32, 33, 65_535] {
        let none = Answer::Done(paths::Largest::default());
        assert_eq!(manager::largest(&sample(), track), none);
    }
}

#[test]
fn a_figure_above_32_is_told_as_it_is() {
    let steps: Vec<(u16, u16, u16)> = (0..127).map(|s| (s, 5, s + 1)).collect();
    for count in [31, 32, 33, 127] {
        let plan = root(128, &steps[..count]);
        let path: Vec<u16> = (0..count as u16).collect();
        assert_eq!(shown(&plan, 0), (count as u16, path));
    }
}

#[test]
fn replacements_add_to_a_figure_above_32() {
    // 97 states in a row, 31 of them with a replacement.
    let steps: Vec<(u16, u16, u16)> = (0..96).map(|s| (s, 5, s + 1)).collect();
    let hosts: Vec<(u16, u16)> = (0..31).map(|n| (3 * n, 90)).collect();
    assert_eq!(figure(&hosting(97, &steps, &hosts), 0), 127);
}

#[test]
fn many_equal_paths_are_gone_through_at_once() {
    // Two transitions from each state to the next: 2 to the 127th paths.
    let steps = (0..254).map(|n| (n / 2, 5, n / 2 + 1));
    let plan = root(128, &steps.collect::<Vec<_>>());
    let (figure, path) = shown(&plan, 0);
    assert_eq!((figure, path.len()), (127, 127));
}

#[test]
fn windows_and_rights_are_left_aside() {
    let mut plan = sample_records();
    plan.windows = vec![window(0, -3, -3), window(3, 5, 9)];
    plan.rights.clear();
    assert_eq!(figure(&plan, 0), 2);
    assert_eq!(figure(&plan, 2), 2);
}

#[test]
fn a_deviation_is_29() {
    assert_eq!(of_sample(|_| {}), 0);
    assert_eq!(of_sample(|p| p.transitions[0].deviation = 0), 29);
    // Of a transition that no path from the first state takes.
    let mut plan = root(3, &[(1, 5, 2)]);
    assert_eq!(refusal(&plan.encode()), 0);
    plan.transitions[0].deviation = 0;
    assert_eq!(refusal(&plan.encode()), 29);
}

#[test]
fn a_self_loop_is_29() {
    assert_eq!(of_sample(|p| p.transitions.push(step(0, 15, 7, 0))), 29);
    assert_eq!(of_sample(|p| p.transitions.push(step(0, 15, 0, 0))), 29);
    assert_eq!(of_sample(|p| p.transitions.push(step(6, 15, 0, 6))), 29);
}

#[test]
fn a_cycle_is_29_whatever_its_codes() {
    assert_eq!(of_sample(|p| p.transitions.push(step(1, 15, 7, 0))), 29);
    assert_eq!(of_sample(|p| p.transitions.push(step(1, 15, 0, 0))), 29);
    let round = [(0, 0, 1), (1, 0, 2), (2, 0, 3), (3, 0, 1)];
    assert_eq!(refusal(&root(4, &round).encode()), 29);
    assert_eq!(refusal(&root(4, &round[..3]).encode()), 0);
}

#[test]
fn a_cycle_of_states_that_are_not_reached_is_29() {
    assert_eq!(refusal(&root(3, &[(1, 5, 2), (2, 5, 1)]).encode()), 29);
    assert_eq!(refusal(&root(3, &[(1, 5, 2), (2, 5, 0)]).encode()), 0);
    assert_eq!(refusal(&root(2, &[(1, 5, 1)]).encode()), 29);
}

#[test]
fn paths_that_part_and_meet_are_no_cycle() {
    let meet = [(0, 5, 1), (0, 5, 2), (1, 5, 3), (2, 5, 3), (0, 5, 3)];
    assert_eq!(refusal(&root(4, &meet).encode()), 0);
    // Two transitions from one state to another.
    assert_eq!(refusal(&root(2, &[(0, 5, 1), (0, 6, 1)]).encode()), 0);
}

#[test]
fn the_plan_s_own_numbers_are_before_29() {
    let unbounded = |change: fn(&mut Records)| {
        of_sample(|p| {
            p.transitions.push(step(0, 15, 7, 0));
            p.transitions[0].deviation = 0;
            change(p);
        })
    };
    assert_eq!(unbounded(|_| {}), 29);
    assert_eq!(unbounded(|p| p.rights[0].sum = 8), 27);
    assert_eq!(unbounded(|p| p.rights.push(p.rights[0])), 27);
    assert_eq!(unbounded(|p| p.windows = vec![window(9, 0, 0)]), 25);
    assert_eq!(unbounded(|p| p.transitions.push(p.transitions[0])), 15);
    assert_eq!(unbounded(|p| p.tracks.clear()), 8);
    assert_eq!(refusal(&[]), 2);
    assert_eq!(refusal(&[4, 0, 4, 0]), 8);
}

#[test]
fn no_other_call_is_refused_as_29() {
    let plan = looping().encode();
    assert_eq!(refusal(&plan), 29);
    assert!(plan::read(&plan).is_ok());
    let mut words = vec![0; 71];
    assert_eq!(manager::begin(MAIN, &plan, &mut words), Answer::Done(()));
    let moved = manager::event(MAIN, &plan, &mut words, 1, 0, 1);
    assert!(matches!(moved, Answer::Done(m) if m.moved == 1));
    let printed = journal::unwind(&plan, &[]);
    assert_eq!(printed, b"PLAN 1 2 3\nH 0 0\n");
}

#[test]
fn what_is_no_path_from_the_first_state_has_no_count() {
    let plan: Plan = plan::read(&sample()).expect("accepted");
    let along = |track, path: &[u16]| paths::entries_along(&plan, track, path);
    assert_eq!(along(0, &[]), Some(0));
    assert_eq!(along(0, &[0]), Some(2));
    assert_eq!(along(0, &[0, 1]), Some(2));
    assert_eq!(along(0, &[1]), None);
    assert_eq!(along(0, &[0, 0]), None);
    assert_eq!(along(0, &[2]), None);
    assert_eq!(along(1, &[2]), Some(1));
    assert_eq!(along(2, &[4]), None);
    assert_eq!(along(0, &[5]), None);
    assert_eq!(along(0, &[65_535]), None);
    assert_eq!(along(3, &[]), None);
}

#[test]
fn an_unbounded_plan_has_a_number_of_its_own() {
    let deviating = Transition {
        deviation: 0,
        ..step(0, 1, 5, 1)
    };
    let mut plan = root(2, &[]);
    plan.transitions = vec![deviating];
    let answer = manager::largest(&plan.encode(), 0);
    assert_eq!(answer, Answer::Refused(Refusal::Unbounded));
    assert_eq!(Refusal::Unbounded.number(), 29);
}
