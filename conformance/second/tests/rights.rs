//! Rights records, refusals 27 and 28, and whose tracks a call strikes.

mod common;

use common::*;
use second::journal::Record;
use second::ledger::{track_words, Entry};
use second::manager::{self, Answer};
use second::plan::{self, Records, Right, Rights, NONE};
use second::refusal::Refusal;
use second::rules::Moved;

/// The reader's refusal of a plan, 0 where it accepts it.
fn refusal(bytes: &[u8]) -> u8 {
    plan::read(bytes).map_or_else(Refusal::number, |_| 0)
}

/// The sample plan with other rights.
fn held(rights: &[Rights]) -> Records {
    Records {
        rights: rights.to_vec(),
        ..sample_records()
    }
}

/// The refusal of the sample plan with other rights.
fn of_rights(rights: &[Rights]) -> u8 {
    refusal(&held(rights).encode())
}

/// `two_links` with root 0 held by society 1 and root 1 by society 2.
fn divided() -> Vec<u8> {
    let mut plan = two_links();
    plan.rights = vec![rights(1, 0, 7), rights(2, 1, 7)];
    plan.encode()
}

fn begun(plan: &[u8]) -> Vec<u16> {
    let tracks = plan::read(plan).expect("accepted").track_count();
    let mut words = vec![0xABCD; MAIN.track_start(tracks) + 1];
    assert_eq!(manager::begin(MAIN, plan, &mut words), Answer::Done(()));
    words
}

/// The modes of both tracks.
fn modes(words: &[u16]) -> [u16; 2] {
    [0, 1].map(|t| track_words(MAIN, words, t)[0])
}

fn moved(moved: u16) -> Answer<Moved> {
    Answer::Done(Moved { moved, closed: 0 })
}

fn fired(code: u16, deviation: u16) -> Answer<Entry> {
    Answer::Done(Entry { code, deviation })
}

#[test]
fn a_rights_record_has_ten_bytes_of_kind_6() {
    let plan = sample();
    let end = plan.len() - 4;
    assert_eq!(plan[end - 10..end], [10, 0, 6, 0, 1, 0, 0, 0, 7, 0]);
    let read = plan::read(&plan).expect("accepted");
    assert_eq!(read.records().rights, [rights(1, 0, 7)]);
}

#[test]
fn rights_stand_between_windows_and_the_end() {
    let sample = sample();
    let (body, last) = sample.split_at(sample.len() - 14);
    let (record, end) = last.split_at(10);
    let window = [14, 0, 5, 0, 0, 0, 0, 0, 0, 0, 9, 0, 0, 0];
    let plan = |records: &[&[u8]]| refusal(&[body, &records.concat()].concat());
    assert_eq!(plan(&[&window, record, end]), 0);
    assert_eq!(plan(&[end]), 0);
    assert_eq!(plan(&[record, &window, end]), 3);
    for kind in [1, 2, 3, 5] {
        assert_eq!(plan(&[record, &[4, 0, kind, 0]]), 3);
    }
    assert_eq!(plan(&[record, &[4, 0, 7, 0]]), 3);
    assert_eq!(plan(&[record, end, record]), 7);
    assert_eq!(plan(&[record]), 2);
    for length in [0, 4, 8, 9, 11, 12, 14] {
        assert_eq!(plan(&[&[length, 0], &record[2..], end]), 4);
    }
    for kept in 4..10 {
        assert_eq!(plan(&[&record[..kept]]), 5);
    }
    assert_eq!(refusal(&[record, end].concat()), 8);
}

#[test]
fn unfit_rights_are_27() {
    for sum in 1..=7 {
        assert_eq!(of_rights(&[rights(1, 0, sum)]), 0);
    }
    for sum in [0, 8, 9, 15, 16, 0x0100, 0x0107, 0x0700, 65_535] {
        assert_eq!(of_rights(&[rights(1, 0, sum)]), 27, "{sum}");
    }
    for root in [1, 2, 3, 32, 256, 65_534, NONE] {
        assert_eq!(of_rights(&[rights(1, root, 7)]), 27, "{root}");
    }
    let twice = [rights(1, 0, 1), rights(2, 0, 1), rights(1, 0, 2)];
    assert_eq!(of_rights(&twice), 27);
    assert_eq!(of_rights(&[rights(1, 0, 7); 2]), 27);
    assert_eq!(of_rights(&twice[1..]), 0);
    assert_eq!(of_rights(&[]), 0);
}

#[test]
fn two_roots_are_two_pairs() {
    assert_eq!(refusal(&two_links().encode()), 0);
    let mut plan = two_links();
    plan.rights.push(rights(1, 1, 1));
    assert_eq!(refusal(&plan.encode()), 27);
}

#[test]
fn the_65th_record_is_27_and_is_judged_last() {
    let each = |count: u16| (0..count).map(|society| rights(society, 0, 1)).collect();
    let plan = |count: u16| Records {
        rights: each(count),
        ..sample_records()
    };
    assert_eq!(refusal(&plan(64).encode()), 0);
    for count in [65, 66, 100, 3_000] {
        assert_eq!(refusal(&plan(count).encode()), 27);
    }
    let mut unfit = plan(3_000);
    unfit.windows.push(window(5, 0, 0));
    assert_eq!(refusal(&unfit.encode()), 25);
    unfit.states[3].last = 1;
    assert_eq!(refusal(&unfit.encode()), 11);
    // The record after the 64th that is cut short is 5.
    let bytes = plan(65).encode();
    assert_eq!(refusal(&bytes[..bytes.len() - 5]), 5);
    let bytes = plan(65).encode();
    assert_eq!(refusal(&bytes[..bytes.len() - 4]), 2);
}

#[test]
fn other_faults_of_the_plan_are_named_before_27() {
    let with = |change: fn(&mut Records)| {
        let mut plan = held(&[rights(1, 9, 0)]);
        change(&mut plan);
        refusal(&plan.encode())
    };
    assert_eq!(with(|_| {}), 27);
    assert_eq!(with(|p| p.tracks.clear()), 8);
    assert_eq!(with(|p| p.states[7].last = 2), 9);
    assert_eq!(with(|p| p.tracks[1].host = 500), 10);
    assert_eq!(with(|p| p.transitions.push(step(0, 10, 0, 0))), 15);
    assert_eq!(with(|p| p.windows.push(window(5, 0, 0))), 25);
    let mut tall = testing::generate::plans::chain(9);
    tall.rights.push(rights(1, 9, 0));
    assert_eq!(refusal(&tall.encode()), 16);
}

#[test]
fn refused_rights_print_their_line_alone_and_come_before_17() {
    let plan = held(&[rights(1, 1, 7)]).encode();
    assert_eq!(unwind(&plan, &[1]), ["R 27"]);
    assert_eq!(run(&plan, &[event(10), signal()]), ["R 27"]);
    let unfit = Refusal::Rights;
    assert_eq!(manager::begin(MAIN, &plan, &mut []), Answer::Refused(unfit));
    assert_eq!(
        manager::event(MAIN, &plan, &mut [], 0, i32::MIN, 9),
        Answer::Refused(unfit)
    );
    assert_eq!(
        manager::signal(MAIN, &plan, &mut [], 9),
        Answer::Refused(unfit)
    );
    assert_eq!(
        manager::fire(MAIN, &plan, &mut [], 9, 9),
        Answer::Refused(unfit)
    );
    assert_eq!(manager::ready(MAIN, &plan, &[]), Answer::Refused(unfit));
    assert!(manager::entries(MAIN, &plan, &[], 0).is_empty());
}

#[test]
fn rights_count_in_length_and_sum_and_in_no_line() {
    let plain = begun(&held(&[]).encode());
    let words = begun(&held(&[rights(9, 0, 3)]).encode());
    assert_eq!(words[0], plain[0] + 10);
    assert_eq!(words[1], plain[1] + 10 + 6 + 9 + 3);
    assert_eq!(words[2..], plain[2..]);
    assert_eq!(run(&held(&[]).encode(), &[]), ["PLAN 3 8 5", "H 0 0"]);
    assert_eq!(run(&sample(), &[]), ["PLAN 3 8 5", "H 0 0"]);
}

#[test]
fn rights_hold_over_a_root_and_everything_under_it() {
    let mut records = scoped_links(60);
    records.rights = vec![rights(1, 0, 3), rights(2, 1, 4)];
    let plan = plan::read(&records.encode()).expect("accepted");
    assert_eq!([0, 1, 2, 3].map(|t| plan.root_of(t)), [0, 1, 1, 1]);
    let tracks = |society, right| [0, 1, 2, 3].map(|t| plan.allows(society, right, t));
    assert_eq!(tracks(1, Right::Move), [true, false, false, false]);
    assert_eq!(tracks(1, Right::Signal), [true, false, false, false]);
    assert_eq!(tracks(1, Right::Fire), [false; 4]);
    assert_eq!(tracks(2, Right::Move), [false; 4]);
    assert_eq!(tracks(2, Right::Fire), [false, true, true, true]);
    assert_eq!(tracks(3, Right::Move), [false; 4]);
    assert!(plan.allows_somewhere(2, Right::Fire));
    assert!(!plan.allows_somewhere(2, Right::Signal));
}

#[test]
fn an_event_moves_the_society_s_tracks_alone() {
    let plan = divided();
    let mut words = begun(&plan);
    assert_eq!(manager::event(MAIN, &plan, &mut words, 1, 0, 1), moved(1));
    assert_eq!([words[5], words[72]], [1, 3]);
    assert_eq!(manager::event(MAIN, &plan, &mut words, 1, 0, 1), moved(0));
    assert_eq!(manager::event(MAIN, &plan, &mut words, 1, 0, 2), moved(1));
    assert_eq!([words[5], words[72]], [1, 4]);
}

#[test]
fn the_day_is_every_society_s() {
    let plan = divided();
    let mut words = begun(&plan);
    assert_eq!(manager::event(MAIN, &plan, &mut words, 99, 5, 1), moved(0));
    assert_eq!(words[2..4], [5, 0]);
    let refused = manager::event(MAIN, &plan, &mut words, 1, 4, 2);
    assert_eq!(refused, Answer::Refused(Refusal::Day));
    assert_eq!(manager::event(MAIN, &plan, &mut words, 1, 5, 2), moved(1));
}

#[test]
fn a_full_track_of_another_is_no_matter() {
    let mut plan = looping_link();
    plan.transitions.push(step(2, 1, 9, 2));
    plan.rights = vec![rights(1, 0, 7), rights(2, 1, 7)];
    plan.rights.extend([rights(3, 0, 1), rights(3, 1, 1)]);
    let plan = plan.encode();
    let mut words = begun(&plan);
    for _ in 0..32 {
        assert_eq!(manager::event(MAIN, &plan, &mut words, 1, 0, 1), moved(1));
    }
    let full = Answer::Refused(Refusal::Full);
    assert_eq!(manager::event(MAIN, &plan, &mut words, 1, 0, 1), full);
    assert_eq!(manager::event(MAIN, &plan, &mut words, 1, 0, 3), full);
    assert_eq!(manager::event(MAIN, &plan, &mut words, 1, 0, 2), moved(1));
    let stranger = manager::event(MAIN, &plan, &mut words, 1, 0, 4);
    assert_eq!(stranger, Answer::Refused(Refusal::NoRight));
}

#[test]
fn a_signal_turns_the_society_s_tracks_alone() {
    let plan = divided();
    let mut words = begun(&plan);
    assert_eq!(manager::signal(MAIN, &plan, &mut words, 2), Answer::Done(1));
    assert_eq!(modes(&words), [1, 2]);
    assert_eq!(manager::signal(MAIN, &plan, &mut words, 2), Answer::Done(0));
    assert_eq!(modes(&words), [1, 2]);
    assert_eq!(manager::signal(MAIN, &plan, &mut words, 1), Answer::Done(1));
    assert_eq!(modes(&words), [2, 2]);
}

#[test]
fn a_signal_may_be_the_end_beside_a_root_that_has_ended() {
    let plan = divided();
    let mut words = begun(&plan);
    assert_eq!(manager::event(MAIN, &plan, &mut words, 3, 0, 1), moved(1));
    assert_eq!(modes(&words), [1, 1]);
    assert_eq!(manager::signal(MAIN, &plan, &mut words, 2), Answer::Done(1));
    assert!(words[4..138].iter().all(|&word| word == 0));
    for society in [1, 2, 3] {
        let signal = manager::signal(MAIN, &plan, &mut words, society);
        assert_eq!(signal, Answer::Refused(Refusal::Over));
    }
}

#[test]
fn a_signal_is_not_the_end_while_an_entry_is_held() {
    let plan = divided();
    let mut words = begun(&plan);
    manager::event(MAIN, &plan, &mut words, 1, 0, 2);
    manager::event(MAIN, &plan, &mut words, 3, 0, 1);
    assert_eq!(manager::signal(MAIN, &plan, &mut words, 2), Answer::Done(1));
    assert_eq!(modes(&words), [1, 2]);
    let last = manager::fire(MAIN, &plan, &mut words, 1, 2);
    assert_eq!(last, fired(60, NONE));
    assert_eq!(modes(&words), [0, 0]);
}

#[test]
fn each_right_is_asked_for_by_its_own_call() {
    for sum in 1..=7u16 {
        let plan = held(&[rights(1, 0, sum), rights(2, 0, 7)]).encode();
        let mut words = begun(&plan);
        let refused = |sum: u16, right: u16| sum & right == 0;
        let event = manager::event(MAIN, &plan, &mut words, 10, 0, 1);
        assert_eq!(event == Answer::Refused(Refusal::NoRight), refused(sum, 1));
        manager::event(MAIN, &plan, &mut words, 10, 0, 2);
        let signal = manager::signal(MAIN, &plan, &mut words, 1);
        assert_eq!(signal == Answer::Refused(Refusal::NoRight), refused(sum, 2));
        manager::signal(MAIN, &plan, &mut words, 2);
        let fire = manager::fire(MAIN, &plan, &mut words, 0, 1);
        assert_eq!(fire == Answer::Refused(Refusal::NoRight), refused(sum, 4));
        assert_eq!(fire == fired(50, NONE), !refused(sum, 4));
    }
}

#[test]
fn refused_calls_of_a_society_without_rights_change_no_word() {
    let plan = sample();
    let mut words = begun(&plan);
    manager::event(MAIN, &plan, &mut words, 10, 3, 1);
    let before = words.clone();
    let refused = Refusal::NoRight;
    for society in [0, 2, 256, 65_535] {
        assert_eq!(
            manager::event(MAIN, &plan, &mut words, 11, 9, society),
            Answer::Refused(refused)
        );
        assert_eq!(
            manager::signal(MAIN, &plan, &mut words, society),
            Answer::Refused(refused)
        );
        for track in 0..3 {
            let fire = manager::fire(MAIN, &plan, &mut words, track, society);
            assert_eq!(fire, Answer::Refused(refused));
        }
        for track in [3, 32, NONE] {
            let fire = manager::fire(MAIN, &plan, &mut words, track, society);
            assert_eq!(fire, Answer::Refused(Refusal::NotReady));
        }
    }
    assert_eq!(words, before);
}

#[test]
fn an_event_is_judged_19_26_20_28_21() {
    let plan = sample();
    let mut words = begun(&plan);
    let number =
        |words: &mut [u16], event, day| match manager::event(MAIN, &sample(), words, event, day, 2)
        {
            Answer::Refused(refusal) => refusal.number(),
            Answer::Done(_) => 0,
        };
    assert_eq!(number(&mut words, 0, i32::MAX), 19);
    assert_eq!(number(&mut words, 10, i32::MAX), 26);
    assert_eq!(number(&mut words, 10, 0), 28);
    for event in [10, 11, 12, 14, 13] {
        manager::event(MAIN, &plan, &mut words, event, 0, 1);
    }
    assert_eq!(number(&mut words, 0, i32::MAX), 19);
    assert_eq!(number(&mut words, 10, -1), 26);
    assert_eq!(number(&mut words, 10, 0), 20);
    assert_eq!(
        manager::fire(MAIN, &plan, &mut words, 0, 2),
        Answer::Refused(Refusal::Over)
    );
}

#[test]
fn ready_and_entries_leave_rights_aside() {
    let plan = divided();
    let mut words = begun(&plan);
    for society in [1, 2] {
        manager::event(MAIN, &plan, &mut words, 1, 0, society);
        manager::signal(MAIN, &plan, &mut words, society);
    }
    assert_eq!(manager::ready(MAIN, &plan, &words), Answer::Done(0b11));
    assert_eq!(manager::entries(MAIN, &plan, &words, 0), [50, 0]);
    assert_eq!(manager::entries(MAIN, &plan, &words, 1), [60, NONE]);
}

#[test]
fn the_lowest_firing_picks_among_the_society_s_tracks() {
    let by = |society: u16| [Record::Event(1, 0, society), Record::Signal(society)];
    let mut records = [by(1), by(2)].concat();
    records.extend([2, 2, 3, 1, 1].map(Record::FireLowest));
    let lines = run(&divided(), &records);
    let fired = ["F 1 60 -", "R 22", "R 22", "F 0 50 0", "R 22", "H 0 2"];
    assert_eq!(lines[5..], fired);
}

#[test]
fn the_lowest_firing_is_never_28() {
    let plan = held(&[]).encode();
    let records = [lowest(), event(10), signal(), fire(0), fire(3)];
    let lines = run(&plan, &records);
    assert_eq!(
        lines[1..],
        ["R 22", "R 28", "R 28", "R 28", "R 22", "H 0 0"]
    );
    let mut over = [10, 11, 12, 14, 13].map(event).to_vec();
    over.push(Record::FireLowest(2));
    assert_eq!(run(&sample(), &over)[6..], ["R 20", "H 0 0"]);
}

#[test]
fn every_number_may_be_a_society_s() {
    for society in [0, 1, 255, 256, 32_768, 65_535] {
        let plan = held(&[rights(society, 0, 7)]).encode();
        let records = [
            Record::Event(10, 0, society),
            Record::Signal(society),
            Record::FireLowest(society),
        ];
        let lines = run(&plan, &records);
        assert_eq!(lines[1..], ["E 10 1 0", "S 3", "F 0 50 -", "H 0 1"]);
        let others = [Record::Signal(society ^ 1), Record::Signal(society ^ 256)];
        assert_eq!(run(&plan, &others)[1..], ["R 28", "R 28", "H 0 0"]);
    }
}
