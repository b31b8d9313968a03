//! The sample, "Runs and edges" and "Mistakes that tempt".

mod common;

use common::*;
use second::ledger::{track_words, Entry};
use second::manager::{self, Answer};
use second::plan::{self, NONE};
use second::refusal::Refusal;
use second::rules::Moved;
use testing::generate::plans;

/// Words that begin has written for a plan, with three words beyond.
fn begun(plan: &[u8]) -> Vec<u16> {
    let tracks = plan::read(plan).expect("accepted").track_count();
    let mut words = vec![0xABCD; 4 + 67 * tracks + 3];
    assert_eq!(manager::begin(MAIN, plan, &mut words), Answer::Done(()));
    assert_eq!(words[4 + 67 * tracks..], [0xABCD; 3]);
    words
}

fn moved(moved: u16, closed: u16) -> Answer<Moved> {
    Answer::Done(Moved { moved, closed })
}

fn fired(code: u16) -> Answer<Entry> {
    Answer::Done(Entry {
        code,
        deviation: NONE,
    })
}

/// Sends events to the sample plan.
fn send(words: &mut [u16], events: &[u16]) -> Vec<Answer<Moved>> {
    let plan = sample();
    let send = |&event| manager::event(MAIN, &plan, words, event, 0, 1);
    events.iter().map(send).collect()
}

#[test]
fn sample_plan_prints_its_ten_lines() {
    let records = [
        event(10),
        event(11),
        event(12),
        signal(),
        lowest(),
        lowest(),
        lowest(),
        lowest(),
    ];
    let lines = [
        "PLAN 3 8 5",
        "E 10 1 0",
        "E 11 1 0",
        "E 12 1 0",
        "S 3",
        "F 1 51 -",
        "F 2 52 -",
        "F 0 50 -",
        "R 22",
        "H 0 3",
    ];
    assert_eq!(run(&sample(), &records), lines);
}

#[test]
fn no_bytes_is_2() {
    assert_eq!(plan::read(&[]), Err(Refusal::NoRecord));
    assert_eq!(unwind(&[], &[]), ["R 2"]);
}

#[test]
fn end_record_only_is_8() {
    assert_eq!(unwind(&[4, 0, 4, 0], &[]), ["R 8"]);
}

#[test]
fn bytes_after_end_is_7() {
    let mut plan = sample();
    plan.push(0);
    assert_eq!(unwind(&plan, &[]), ["R 7"]);
}

#[test]
fn event_13_first_moves_none() {
    let mut words = begun(&sample());
    let before = words.clone();
    assert_eq!(send(&mut words, &[13]), [moved(0, 0)]);
    // The day alone is written.
    assert_eq!(words[..4], [182, 633, 0, 0]);
    assert_eq!(words[4..], before[4..]);
}

#[test]
fn event_13_after_10_moves_none_with_the_scope_open() {
    let mut words = begun(&sample());
    assert_eq!(send(&mut words, &[10, 13]), [moved(1, 0), moved(0, 0)]);
    assert_eq!(words[4..9], [1, 1, 1, 50, NONE]);
    assert_eq!(words[71..74], [1, 3, 0]);
    assert_eq!(words[138..141], [1, 5, 0]);
}

#[test]
fn last_event_closes_and_replaces() {
    let mut words = begun(&sample());
    let answers = send(&mut words, &[10, 11, 12, 14]);
    assert_eq!(
        answers,
        [moved(1, 0), moved(1, 0), moved(1, 0), moved(1, 1)]
    );
    assert_eq!(
        manager::entries(MAIN, &sample(), &words, 0),
        [50, NONE, 90, NONE]
    );
    assert_eq!(words[4..7], [1, 1, 2]);
    assert_eq!(words[71..205], [0; 134]);
}

#[test]
fn signal_then_fires_90_and_50() {
    let plan = sample();
    let mut words = begun(&plan);
    send(&mut words, &[10, 11, 12, 14]);
    assert_eq!(manager::signal(MAIN, &plan, &mut words, 1), Answer::Done(1));
    assert_eq!(manager::ready(MAIN, &plan, &words), Answer::Done(1));
    assert_eq!(manager::fire(MAIN, &plan, &mut words, 0, 1), fired(90));
    assert_eq!(manager::fire(MAIN, &plan, &mut words, 0, 1), fired(50));
    assert_eq!(words[4..7], [2, 1, 0]);
    assert_eq!(manager::ready(MAIN, &plan, &words), Answer::Done(0));
}

#[test]
fn event_13_instead_of_the_signal_is_over() {
    let plan = sample();
    let mut words = begun(&plan);
    send(&mut words, &[10, 11, 12, 14]);
    assert_eq!(send(&mut words, &[13]), [moved(1, 0)]);
    assert_eq!(words[..4], [182, 633, 0, 0]);
    assert_eq!(words[4..205], [0; 201]);
    assert_eq!(
        manager::signal(MAIN, &plan, &mut words, 1),
        Answer::Refused(Refusal::Over)
    );
    assert_eq!(manager::ready(MAIN, &plan, &words), Answer::Done(0));
}

#[test]
fn signal_after_begin_turns_1_and_is_not_over() {
    let plan = sample();
    let mut words = begun(&plan);
    assert_eq!(manager::signal(MAIN, &plan, &mut words, 1), Answer::Done(1));
    assert_eq!(manager::ready(MAIN, &plan, &words), Answer::Done(0));
    assert_eq!(words[4..7], [2, 0, 0]);
    assert_eq!(manager::signal(MAIN, &plan, &mut words, 1), Answer::Done(0));
}

#[test]
fn signal_after_10_turns_3_and_abandons() {
    let plan = sample();
    let mut words = begun(&plan);
    send(&mut words, &[10]);
    assert_eq!(manager::signal(MAIN, &plan, &mut words, 1), Answer::Done(3));
    assert_eq!(words[71..205], [0; 134]);
    assert_eq!(manager::ready(MAIN, &plan, &words), Answer::Done(1));
}

#[test]
fn firing_track_0_while_1_holds_an_entry_is_22() {
    let plan = sample();
    let mut words = begun(&plan);
    send(&mut words, &[10, 11]);
    manager::signal(MAIN, &plan, &mut words, 1);
    let before = words.clone();
    assert_eq!(
        manager::fire(MAIN, &plan, &mut words, 0, 1),
        Answer::Refused(Refusal::NotReady)
    );
    assert_eq!(words, before);
}

#[test]
fn entry_32_installs_and_entry_33_is_21() {
    let mut lines = run(&looping().encode(), &[event(1); 33]);
    assert_eq!(lines.pop().as_deref(), Some("H 32 0"));
    assert_eq!(lines.pop().as_deref(), Some("R 21"));
    assert_eq!(lines.remove(0), "PLAN 1 2 3");
    assert_eq!(lines, ["E 1 1 0"; 32]);
}

#[test]
fn height_8_passes_and_9_is_16() {
    let eight = plans::chain(8);
    let heights = plan::read(&eight.encode()).expect("accepted").heights();
    assert_eq!(heights, [8, 7, 6, 5, 4, 3, 2, 1]);
    assert_eq!(
        unwind(&eight.encode(), &[]),
        ["PLAN 8 16 8".to_string(), "H 0 0".to_string()]
    );
    assert_eq!(unwind(&plans::chain(9).encode(), &[]), ["R 16"]);
}

#[test]
fn a_chain_wakes_and_is_abandoned_as_a_whole() {
    let plan = plans::chain(8).encode();
    let lines = run(&plan, &[signal(), signal(), lowest()]);
    assert_eq!(lines, ["PLAN 8 16 8", "S 8", "S 0", "R 22", "H 0 0"]);
}

#[test]
fn host_does_not_move_on_the_event_that_closed_its_scope() {
    let mut plan = sample_records();
    // The host leaves on the event that closes its scope, but not at once.
    plan.transitions[1].event = 14;
    let records = [event(10), event(11), event(12), event(14), event(14)];
    let lines = run(&plan.encode(), &records);
    assert_eq!(lines[3..], ["E 12 1 0", "E 14 1 1", "E 14 1 0", "H 0 0"]);
}

#[test]
fn host_is_not_fired_while_a_branch_holds_entries() {
    let records = [event(10), event(12), signal(), fire(0), fire(2), fire(0)];
    let lines = run(&sample(), &records);
    assert_eq!(lines[3..], ["S 3", "R 22", "F 2 52 -", "F 0 50 -", "H 0 2"]);
}

#[test]
fn replacement_0_is_not_installed() {
    let mut plan = sample_records();
    plan.states[1].replacement = 0;
    let records = [event(10), event(11), event(12), event(14)];
    let lines = run(&plan.encode(), &records);
    assert_eq!(lines[4..], ["E 14 1 1", "H 1 0"]);
}

#[test]
fn inner_entries_are_dropped_beside_the_replacement() {
    let records = [
        event(10),
        event(11),
        event(12),
        event(14),
        signal(),
        lowest(),
    ];
    let lines = run(&sample(), &records);
    assert_eq!(lines[4..], ["E 14 1 1", "S 1", "F 0 90 -", "H 1 1"]);
}

#[test]
fn signal_turns_every_track() {
    let plan = sample();
    let mut words = begun(&plan);
    send(&mut words, &[10, 11, 12]);
    assert_eq!(manager::signal(MAIN, &plan, &mut words, 1), Answer::Done(3));
    assert_eq!(
        [0, 1, 2].map(|t| track_words(MAIN, &words, t)[0]),
        [2, 2, 2]
    );
    assert_eq!(manager::ready(MAIN, &plan, &words), Answer::Done(0b110));
}
