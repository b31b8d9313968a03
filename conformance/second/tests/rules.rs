//! Corners of the rules that the paper's runs do not reach.

mod common;

use common::*;
use second::plan::{Records, NONE};
use testing::generate::plans;

/// Root 0 with states 0, 1 (hosting track 1, replacement 90) and 2 (final);
/// track 1 with states 3 and 4 (final). Event 1 leads from 0 to 1 and may
/// deviate into 1, event 2 ends the scope, event 3 loops on the hosting state,
/// event 4 ends the root.
fn deviating() -> Records {
    let mut plan = Records {
        tracks: vec![track(NONE), track(1)],
        states: vec![
            state(0, 0, 0),
            state(0, 0, 90),
            state(0, 1, 0),
            state(1, 0, 0),
            state(1, 1, 0),
        ],
        transitions: vec![
            step(0, 1, 50, 1),
            step(3, 2, 51, 4),
            step(1, 3, 60, 1),
            step(1, 4, 0, 2),
        ],
        windows: vec![],
        rights: every_right(&[0]),
    };
    plan.transitions[0].deviation = 1;
    plan
}

#[test]
fn a_deviation_enters_a_hosting_state_and_opens_its_scope() {
    let records = [event(1), signal(), fire(0), event(2), signal(), lowest()];
    let lines = run(&deviating().encode(), &records);
    assert_eq!(
        lines,
        [
            "PLAN 2 5 4",
            "E 1 1 0",
            "S 2",
            "F 0 50 1",
            "E 2 1 1",
            "S 1",
            "F 0 90 -",
            "H 0 2"
        ]
    );
}

#[test]
fn a_self_loop_of_a_hosting_state_reopens_its_scope() {
    let records = [event(1), event(2), event(3), event(3), event(2), event(4)];
    let lines = run(&deviating().encode(), &records);
    assert_eq!(
        lines,
        [
            "PLAN 2 5 4",
            "E 1 1 0",
            "E 2 1 1",
            "E 3 1 0",
            "E 3 0 0",
            "E 2 1 1",
            "E 4 1 0",
            "H 0 0"
        ]
    );
}

#[test]
fn an_ended_root_waits_for_the_entry_of_another() {
    // Two roots like `looping`, the first deviating to its first state.
    let mut plan = looping();
    plan.tracks.push(track(NONE));
    plan.states.extend([state(1, 0, 0), state(1, 1, 0)]);
    plan.rights = every_right(&[0, 1]);
    plan.transitions[0].deviation = 0;
    plan.transitions
        .extend([step(2, 1, 9, 2), step(2, 4, 0, 3)]);
    let records = [
        event(1),
        signal(),
        fire(0),
        event(3),
        event(4),
        signal(),
        signal(),
    ];
    let lines = run(&plan.encode(), &records);
    assert_eq!(
        lines[1..],
        ["E 1 2 0", "S 2", "F 0 7 0", "E 3 1 0", "E 4 0 0", "S 1", "S 0", "H 1 1"]
    );
}

#[test]
fn an_entry_dropped_by_finish_still_needs_room() {
    let mut records = vec![event(1); 32];
    records.extend([event(2), event(3), event(3)]);
    let lines = run(&looping().encode(), &records);
    assert_eq!(lines[33..], ["R 21", "E 3 1 0", "R 20", "H 0 0"]);
}

#[test]
fn an_entry_dropped_by_closing_still_needs_room() {
    let mut plan = deviating();
    plan.transitions.push(step(3, 5, 52, 3));
    let mut records = vec![event(1)];
    records.extend([event(5); 32]);
    records.push(event(2));
    let lines = run(&plan.encode(), &records);
    assert_eq!(lines[34..], ["R 21", "H 33 0"]);
}

#[test]
fn a_replacement_needs_room() {
    let mut plan = deviating();
    plan.transitions.push(step(0, 5, 70, 0));
    plan.transitions[1].code = 0;
    let mut records = vec![event(5); 31];
    records.extend([event(1), event(2), signal(), lowest()]);
    let lines = run(&plan.encode(), &records);
    assert_eq!(
        lines[32..],
        ["E 1 1 0", "R 21", "S 2", "F 0 50 1", "H 31 1"]
    );
}

#[test]
fn closing_needs_no_room_where_the_replacement_is_0() {
    let mut plan = deviating();
    plan.states[1].replacement = 0;
    plan.transitions.push(step(0, 5, 70, 0));
    let mut records = vec![event(5); 31];
    records.extend([event(1), event(2)]);
    let lines = run(&plan.encode(), &records);
    assert_eq!(lines[32..], ["E 1 1 0", "E 2 1 1", "H 32 0"]);
}

#[test]
fn abandoning_climbs_after_a_firing() {
    // Only the innermost track of the chain holds an entry; the innermost
    // scope stays open with its other track not yet final.
    let mut plan = plans::chain(4);
    plan.tracks.push(track(plan.tracks[3].host));
    plan.states.push(state(4, 0, 0));
    let records = [event(4), signal(), lowest(), signal(), lowest()];
    let lines = run(&plan.encode(), &records);
    assert_eq!(
        lines,
        [
            "PLAN 5 9 4",
            "E 4 1 0",
            "S 5",
            "F 3 53 -",
            "S 0",
            "R 22",
            "H 0 1"
        ]
    );
}

#[test]
fn nested_scopes_close_one_event_after_another() {
    let mut plan = plans::chain(3);
    plan.states[0].replacement = 80;
    plan.states[2].replacement = 81;
    let records = [event(3), event(2), event(1), event(1)];
    let lines = run(&plan.encode(), &records);
    assert_eq!(
        lines,
        [
            "PLAN 3 6 3",
            "E 3 1 1",
            "E 2 1 1",
            "E 1 1 0",
            "R 20",
            "H 0 0"
        ]
    );
}

#[test]
fn one_event_closes_two_scopes() {
    let mut plan = plans::chain(2);
    let second = plans::chain(2);
    plan.tracks.extend([track(NONE), track(4)]);
    plan.rights = every_right(&[0, 2]);
    plan.states
        .extend(second.states.iter().map(|s| state(s.track + 2, s.last, 0)));
    plan.transitions.push(step(6, 2, 5, 7));
    let lines = run(&plan.encode(), &[event(2)]);
    assert_eq!(lines, ["PLAN 4 8 3", "E 2 2 2", "H 0 0"]);
}

#[test]
fn journal_kinds_may_fall() {
    let lines = run(&sample(), &[lowest(), fire(9), signal(), event(10)]);
    assert_eq!(
        lines,
        ["PLAN 3 8 5", "R 22", "R 22", "S 1", "E 10 0 0", "H 0 0"]
    );
}
