//! Each refusal, in checking order.

mod common;

use common::*;
use second::journal;
use second::manager::{self, Answer};
use second::plan::{self, Plan, Records, MAX_STATES, NONE};
use second::refusal::Refusal;

fn number(result: Result<Plan, Refusal>) -> u8 {
    result.map_or_else(Refusal::number, |_| 0)
}

/// The reader's refusal of some bytes, 0 where it accepts them.
fn of_bytes(bytes: &[u8]) -> u8 {
    number(plan::read(bytes))
}

/// The refusal of the sample plan after a change to its records.
fn of_sample(change: impl FnOnce(&mut Records)) -> u8 {
    let mut plan = sample_records();
    change(&mut plan);
    of_bytes(&plan.encode())
}

#[test]
fn the_sample_is_accepted() {
    assert_eq!(of_sample(|_| {}), 0);
}

#[test]
fn files_of_32768_bytes_pass_and_of_32769_are_1() {
    let plan = sample();
    let mut records = vec![signal(); 5460];
    records.push(fire(0));
    let mut journal = journal(&records);
    assert_eq!(journal.len(), 32_768);
    let lines = unwind(&plan, &journal);
    assert_eq!(lines.len(), 5463);
    assert_eq!(lines[..3], ["PLAN 3 8 5", "S 1", "S 0"]);
    assert_eq!(lines[5461..], ["R 22", "H 0 0"]);
    journal.push(0);
    assert_eq!(unwind(&plan, &journal), ["R 1"]);
    assert_eq!(unwind(&[], &journal), ["R 1"]);
}

#[test]
fn plan_files_of_32768_bytes_are_read_and_of_32769_are_1() {
    let mut plan = sample();
    plan.resize(32_768, 0);
    assert_eq!(unwind(&plan, &[]), ["R 7"]);
    plan.push(0);
    assert_eq!(unwind(&plan, &[]), ["R 1"]);
}

#[test]
fn too_few_bytes_for_a_record_is_2() {
    let plan = sample();
    let end = plan.len() - 4;
    for kept in 0..4 {
        assert_eq!(of_bytes(&plan[..end + kept]), 2);
        assert_eq!(of_bytes(&plan[..kept]), 2);
    }
}

#[test]
fn unknown_or_falling_kind_is_3() {
    assert_eq!(of_bytes(&[4, 0, 0, 0]), 3);
    assert_eq!(of_bytes(&[4, 0, 7, 0]), 3);
    assert_eq!(of_bytes(&[4, 0, 4, 1]), 3);
    let mut plan = sample();
    // The second track becomes a state of the wrong length, the third falls.
    plan[8] = 2;
    assert_eq!(of_bytes(&plan), 4);
    let falling = [10, 0, 2, 0, 0, 0, 0, 0, 0, 0, 6, 0, 1, 0, 255, 255];
    assert_eq!(of_bytes(&falling), 3);
}

#[test]
fn wrong_length_is_4() {
    for length in [0, 4, 5, 7, 10, 14, 255] {
        let mut plan = sample();
        plan[0] = length;
        assert_eq!(of_bytes(&plan), 4);
    }
    assert_eq!(of_bytes(&[6, 0, 4, 0, 0, 0]), 4);
    assert_eq!(of_bytes(&[14, 0, 2, 0]), 4);
}

#[test]
fn record_past_the_last_byte_is_5() {
    let plan = sample();
    assert_eq!(of_bytes(&plan[..4]), 5);
    assert_eq!(of_bytes(&plan[..5]), 5);
    assert_eq!(of_bytes(&plan[..plan.len() - 5]), 5);
}

#[test]
fn one_too_many_is_6() {
    assert_eq!(of_sample(|p| p.tracks.resize(33, track(NONE))), 6);
    assert_eq!(of_sample(|p| p.states.resize(129, state(0, 0, 0))), 6);
    assert_eq!(
        of_sample(|p| p.transitions.resize(257, step(0, 1, 0, 0))),
        6
    );
    assert_eq!(
        of_sample(|p| p.states.resize(MAX_STATES, state(0, 0, 0))),
        0
    );
}

#[test]
fn the_33rd_track_is_6_before_a_later_fault_and_5_before_it() {
    let mut plan = sample_records();
    plan.tracks.resize(33, track(NONE));
    let bytes = plan.encode();
    assert_eq!(of_bytes(&bytes[..33 * 6]), 6);
    assert_eq!(of_bytes(&bytes[..33 * 6 - 1]), 5);
    assert_eq!(of_bytes(&bytes[..32 * 6]), 2);
}

#[test]
fn bytes_after_the_end_are_7_before_8() {
    assert_eq!(of_bytes(&[4, 0, 4, 0, 0]), 7);
    assert_eq!(of_bytes(&[4, 0, 4, 0]), 8);
}

#[test]
fn a_state_of_no_track_or_with_final_above_1_is_9() {
    assert_eq!(of_sample(|p| p.states[7].track = 3), 9);
    assert_eq!(of_sample(|p| p.states[7].track = NONE), 9);
    assert_eq!(of_sample(|p| p.states[7].last = 2), 9);
}

#[test]
fn an_unfit_host_is_10() {
    assert_eq!(of_sample(|p| p.tracks[0].host = 0), 10);
    assert_eq!(of_sample(|p| p.tracks[1].host = 3), 10);
    assert_eq!(of_sample(|p| p.tracks[1].host = 5), 10);
    assert_eq!(of_sample(|p| p.tracks[2].host = 8), 10);
    assert_eq!(of_sample(|p| p.tracks[2].host = 65534), 10);
    // A state of a lower track, be it of a hosted one.
    assert_eq!(of_sample(|p| p.tracks[2].host = 3), 0);
}

#[test]
fn a_track_without_a_good_first_state_is_11() {
    assert_eq!(of_sample(|p| p.tracks.push(track(NONE))), 11);
    assert_eq!(of_sample(|p| p.states[3].last = 1), 11);
}

#[test]
fn unfit_hosting_is_12() {
    assert_eq!(of_sample(|p| p.states[1].last = 1), 12);
    assert_eq!(of_sample(|p| p.states[5].replacement = 1), 12);
    assert_eq!(of_sample(|p| p.states[7].replacement = 1), 12);
}

#[test]
fn an_unfit_transition_is_13() {
    assert_eq!(of_sample(|p| p.transitions[0].source = 8), 13);
    assert_eq!(of_sample(|p| p.transitions[0].destination = 8), 13);
    assert_eq!(of_sample(|p| p.transitions[0].destination = NONE), 13);
    assert_eq!(of_sample(|p| p.transitions[0].destination = 3), 13);
    assert_eq!(of_sample(|p| p.transitions[0].source = 2), 13);
    assert_eq!(of_sample(|p| p.transitions[0].event = 0), 13);
}

#[test]
fn an_unfit_deviation_is_14() {
    let deviate = |at: usize, to: u16| of_sample(|p| p.transitions[at].deviation = to);
    assert_eq!(deviate(0, 1), 0);
    assert_eq!(deviate(0, 3), 14);
    assert_eq!(deviate(0, 8), 14);
    assert_eq!(deviate(0, 2), 14);
    assert_eq!(deviate(1, 0), 14);
    assert_eq!(deviate(2, 3), 14);
}

#[test]
fn twins_are_15() {
    assert_eq!(of_sample(|p| p.transitions.push(step(0, 10, 0, 0))), 15);
    assert_eq!(of_sample(|p| p.transitions.push(step(0, 11, 0, 0))), 0);
}

#[test]
fn plan_numbers_go_number_by_number() {
    // A fault of 13 stands before one of 9 in the file's whole, yet 9 wins.
    let both = |p: &mut Records| {
        p.transitions[0].event = 0;
        p.states[7].last = 2;
    };
    assert_eq!(of_sample(both), 9);
    let twins_and_deviation = |p: &mut Records| {
        p.transitions.insert(0, step(0, 10, 0, 0));
        p.transitions[5].deviation = 6;
    };
    assert_eq!(of_sample(twins_and_deviation), 14);
}

#[test]
fn too_few_words_are_17() {
    let plan = sample();
    let mut words = vec![5; 204];
    let few = Refusal::FewWords;
    assert_eq!(
        manager::begin(MAIN, &plan, &mut words),
        Answer::Refused(few)
    );
    assert_eq!(
        manager::event(MAIN, &plan, &mut words, 0, 0, 1),
        Answer::Refused(few)
    );
    assert_eq!(
        manager::signal(MAIN, &plan, &mut words, 1),
        Answer::Refused(few)
    );
    assert_eq!(
        manager::fire(MAIN, &plan, &mut words, 0, 1),
        Answer::Refused(few)
    );
    assert_eq!(manager::ready(MAIN, &plan, &words), Answer::Refused(few));
    assert!(manager::entries(MAIN, &plan, &words, 0).is_empty());
    assert_eq!(words, [5; 204]);
}

#[test]
fn an_unsound_ledger_is_18_and_begin_takes_it() {
    let plan = sample();
    let mut words = vec![5; 205];
    words[..2].copy_from_slice(&[182, 633]);
    let before = words.clone();
    let unsound = Refusal::Unsound;
    assert_eq!(
        manager::event(MAIN, &plan, &mut words, 0, 0, 1),
        Answer::Refused(unsound)
    );
    assert_eq!(
        manager::signal(MAIN, &plan, &mut words, 1),
        Answer::Refused(unsound)
    );
    assert_eq!(
        manager::fire(MAIN, &plan, &mut words, 9, 1),
        Answer::Refused(unsound)
    );
    assert_eq!(
        manager::ready(MAIN, &plan, &words),
        Answer::Refused(unsound)
    );
    assert!(manager::entries(MAIN, &plan, &words, 0).is_empty());
    assert_eq!(words, before);
    assert_eq!(manager::begin(MAIN, &plan, &mut words), Answer::Done(()));
    assert_eq!(words[..5], [182, 633, 21_499, 65_534, 1]);
    assert_eq!(words[5..], [0; 200]);
}

#[test]
fn event_0_is_19_before_20() {
    let plan = sample();
    let mut over = vec![0; 205];
    over[..2].copy_from_slice(&[182, 633]);
    let event = |words: &mut [u16], e| manager::event(MAIN, &sample(), words, e, 0, 1);
    assert_eq!(event(&mut over, 0), Answer::Refused(Refusal::EventZero));
    assert_eq!(event(&mut over, 1), Answer::Refused(Refusal::Over));
    assert_eq!(
        manager::fire(MAIN, &plan, &mut over, 9, 1),
        Answer::Refused(Refusal::Over)
    );
    assert_eq!(manager::ready(MAIN, &plan, &over), Answer::Done(0));
    assert!(manager::entries(MAIN, &plan, &over, 0).is_empty());
}

#[test]
fn a_firing_that_may_not_be_is_22() {
    let plan = sample();
    let mut words = vec![0; 205];
    manager::begin(MAIN, &plan, &mut words);
    for track in [0, 1, 2, 3, 32, 65535] {
        assert_eq!(
            manager::fire(MAIN, &plan, &mut words, track, 1),
            Answer::Refused(Refusal::NotReady)
        );
    }
}

#[test]
fn each_call_gives_the_plans_refusal() {
    let plan = [4, 0, 4, 0];
    let mut words = [7; 4];
    let none = Refusal::NoTrack;
    assert_eq!(
        manager::begin(MAIN, &plan, &mut words),
        Answer::Refused(none)
    );
    assert_eq!(
        manager::event(MAIN, &plan, &mut words, 0, 0, 1),
        Answer::Refused(none)
    );
    assert_eq!(
        manager::signal(MAIN, &plan, &mut words, 1),
        Answer::Refused(none)
    );
    assert_eq!(
        manager::fire(MAIN, &plan, &mut words, 0, 1),
        Answer::Refused(none)
    );
    assert_eq!(manager::ready(MAIN, &plan, &words), Answer::Refused(none));
    assert!(manager::entries(MAIN, &plan, &words, 0).is_empty());
    assert_eq!(words, [7; 4]);
}

#[test]
fn a_broken_journal_record_is_23_and_ends_the_reading() {
    let broken: [&[u8]; 23] = [
        &[12],
        &[12, 0],
        &[12, 0, 20],
        &[4, 0, 4, 0],
        &[4, 0, 5, 0],
        &[4, 0, 21, 0],
        &[4, 0, 17, 1],
        // An event without a day and a society, as it was before.
        &[6, 0, 16, 0, 10, 0],
        &[12, 0, 16, 0, 10, 0, 0, 0, 0, 0, 1, 0],
        &[6, 0, 20, 0, 10, 0],
        // Without a society.
        &[10, 0, 20, 0, 10, 0, 0, 0, 0, 0],
        &[4, 0, 17, 0],
        &[6, 0, 18, 0, 0, 0],
        &[4, 0, 19, 0],
        // Too long.
        &[14, 0, 20, 0, 10, 0, 0, 0, 0, 0, 1, 0, 0, 0],
        &[8, 0, 17, 0, 1, 0, 0, 0],
        &[10, 0, 18, 0, 0, 0, 1, 0, 0, 0],
        &[8, 0, 19, 0, 1, 0, 0, 0],
        // Cut short.
        &[12, 0, 20, 0],
        &[12, 0, 20, 0, 10, 0, 0, 0, 0, 0, 1],
        &[6, 0, 17, 0, 1],
        &[8, 0, 18, 0, 0, 0, 1],
        &[6, 0, 19, 0],
    ];
    for record in broken {
        let mut journal = journal(&[event(10)]);
        journal.extend_from_slice(record);
        let lines = unwind(&sample(), &journal);
        assert_eq!(lines, ["PLAN 3 8 5", "E 10 1 0", "R 23", "H 1 0"]);
    }
}

#[test]
fn records_after_a_broken_one_are_not_read() {
    let mut bytes = vec![4, 0, 4, 0];
    signal().encode(&mut bytes);
    let lines = unwind(&sample(), &bytes);
    assert_eq!(lines, ["PLAN 3 8 5", "R 23", "H 0 0"]);
}

#[test]
fn refusals_in_a_journal_do_not_end_it() {
    let lines = run(&sample(), &[event(0), fire(3), event(10)]);
    assert_eq!(lines, ["PLAN 3 8 5", "R 19", "R 22", "E 10 1 0", "H 1 0"]);
}

#[test]
fn a_refused_plan_prints_its_line_alone_whatever_the_journal() {
    assert_eq!(journal::unwind(&[4, 0, 4, 0], &[1]), b"R 8\n");
}
