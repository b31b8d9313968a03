//! Windows and the days of events: what a window restricts, refusals 25 and
//! 26, and the day in the ledger.

mod common;

use common::*;
use second::ledger::{self, Clause};
use second::manager::{self, Answer};
use second::plan::{self, Records, Window};
use second::record;
use second::refusal::Refusal;
use second::rules::Moved;

const FIRST: i32 = -109_573;
const LAST: i32 = 182_620;

/// The sample plan with windows.
fn windowed(windows: &[Window]) -> Records {
    Records {
        windows: windows.to_vec(),
        ..sample_records()
    }
}

/// The reader's refusal of a plan, 0 where it accepts it.
fn refusal(bytes: &[u8]) -> u8 {
    plan::read(bytes).map_or_else(Refusal::number, |_| 0)
}

/// The refusal of the sample plan with windows.
fn of_windows(windows: &[Window]) -> u8 {
    refusal(&windowed(windows).encode())
}

/// A plan's ledger just begun.
fn begun(plan: &[u8]) -> Vec<u16> {
    let tracks = plan::read(plan).expect("accepted").track_count();
    let mut words = vec![0xABCD; MAIN.track_start(tracks) + 1];
    assert_eq!(manager::begin(MAIN, plan, &mut words), Answer::Done(()));
    words
}

/// What an event on a day moves, or its refusal.
fn moved(plan: &[u8], words: &mut [u16], event: u16, day: i32) -> Result<u16, u8> {
    match manager::event(MAIN, plan, words, event, day, 1) {
        Answer::Done(m) => Ok(m.moved),
        Answer::Refused(refusal) => Err(refusal.number()),
    }
}

#[test]
fn a_transition_is_taken_from_the_first_day_to_the_last() {
    let plan = windowed(&[window(0, -3, 4)]).encode();
    for day in -10..=10 {
        let mut words = begun(&plan);
        let taken = u16::from((-3..=4).contains(&day));
        assert_eq!(moved(&plan, &mut words, 10, day), Ok(taken), "{day}");
        assert_eq!(ledger::day_of(&words), day);
        assert_eq!(words[5], taken);
    }
}

#[test]
fn a_window_of_one_day_and_one_of_all_days() {
    let plan = windowed(&[window(0, 5, 5)]).encode();
    for (day, taken) in [(4, 0), (5, 1), (6, 0)] {
        assert_eq!(moved(&plan, &mut begun(&plan), 10, day), Ok(taken));
    }
    let plan = windowed(&[window(0, FIRST, LAST)]).encode();
    for day in [FIRST, 0, LAST] {
        assert_eq!(moved(&plan, &mut begun(&plan), 10, day), Ok(1));
    }
}

#[test]
fn windows_at_both_ends_of_the_range() {
    let early = windowed(&[window(0, FIRST, FIRST)]).encode();
    assert_eq!(moved(&early, &mut begun(&early), 10, FIRST), Ok(1));
    assert_eq!(moved(&early, &mut begun(&early), 10, FIRST + 1), Ok(0));
    let late = windowed(&[window(0, LAST, LAST)]).encode();
    assert_eq!(moved(&late, &mut begun(&late), 10, LAST - 1), Ok(0));
    assert_eq!(moved(&late, &mut begun(&late), 10, LAST), Ok(1));
}

#[test]
fn only_the_track_of_the_window_ignores_the_event() {
    // Both roots of `two_links` move by event 1.
    let mut plan = two_links();
    plan.windows = vec![window(3, 100, 200)];
    let plan = plan.encode();
    for (day, both) in [(99, 1), (100, 2), (200, 2), (201, 1)] {
        assert_eq!(moved(&plan, &mut begun(&plan), 1, day), Ok(both), "{day}");
    }
}

#[test]
fn windows_restrict_the_transition_that_they_number() {
    // In any order, and for the last transition of a plan too.
    let plan = windowed(&[window(4, 7, 7), window(0, 1, 9)]).encode();
    let run = |last: i32| {
        let records = [
            event_on(10, 1),
            event_on(12, 1),
            event_on(11, 2),
            event_on(14, last),
        ];
        common::run(&plan, &records).split_off(4)
    };
    assert_eq!(run(6), ["E 14 0 0", "H 3 0"].map(String::from));
    assert_eq!(run(7), ["E 14 1 1", "H 2 0"].map(String::from));
}

#[test]
fn the_windows_order_is_between_transitions_and_the_end() {
    let window = [14, 0, 5, 0, 0, 0, 0, 0, 0, 0, 9, 0, 0, 0];
    let transition = [14, 0, 3, 0, 0, 0, 77, 0, 0, 0, 255, 255, 0, 0];
    let end = [4, 0, 4, 0];
    let body = &sample()[..sample().len() - 14];
    let plan = |records: &[&[u8]]| refusal(&[body, &records.concat()].concat());
    assert_eq!(plan(&[&window, &end]), 0);
    assert_eq!(plan(&[&transition, &window, &end]), 0);
    assert_eq!(plan(&[&window, &transition, &end]), 3);
    assert_eq!(plan(&[&window, &[10, 0, 2, 0]]), 3);
    assert_eq!(plan(&[&window, &[6, 0, 1, 0]]), 3);
    assert_eq!(plan(&[&window, &[4, 0, 7, 0]]), 3);
    assert_eq!(plan(&[&end, &window]), 7);
    assert_eq!(plan(&[&window, &end, &window]), 7);
    assert_eq!(plan(&[&window]), 2);
    assert_eq!(plan(&[&window[..13]]), 5);
    assert_eq!(plan(&[&window[..4]]), 5);
    assert_eq!(plan(&[&[12, 0, 5, 0]]), 4);
    assert_eq!(refusal(&[&window[..], &end].concat()), 8);
}

#[test]
fn an_unfit_window_is_25() {
    assert_eq!(of_windows(&[window(4, 0, 0)]), 0);
    assert_eq!(of_windows(&[window(5, 0, 0)]), 25);
    assert_eq!(of_windows(&[window(65_535, 0, 0)]), 25);
    assert_eq!(of_windows(&[window(1, 0, 9), window(1, 0, 9)]), 25);
    assert_eq!(
        of_windows(&[window(1, 0, 1), window(2, 0, 1), window(1, 2, 3)]),
        25
    );
    assert_eq!(of_windows(&[window(0, 1, 0)]), 25);
    assert_eq!(of_windows(&[window(0, LAST, FIRST)]), 25);
    assert_eq!(of_windows(&[window(0, FIRST, LAST)]), 0);
    assert_eq!(of_windows(&[window(0, FIRST - 1, 0)]), 25);
    assert_eq!(of_windows(&[window(0, 0, LAST + 1)]), 25);
    assert_eq!(of_windows(&[window(0, i32::MIN, i32::MIN)]), 25);
    assert_eq!(of_windows(&[window(0, i32::MAX, i32::MAX)]), 25);
    assert_eq!(of_windows(&[window(0, i32::MIN, i32::MAX)]), 25);
}

#[test]
fn a_plan_without_transitions_has_no_window() {
    let mut plan = sample_records();
    plan.transitions.clear();
    assert_eq!(refusal(&plan.encode()), 0);
    plan.windows.push(window(0, 0, 0));
    assert_eq!(refusal(&plan.encode()), 25);
}

#[test]
fn other_faults_of_the_plan_are_named_before_25() {
    let with = |change: fn(&mut Records)| {
        let mut plan = windowed(&[window(9, 1, 0)]);
        change(&mut plan);
        refusal(&plan.encode())
    };
    assert_eq!(with(|_| {}), 25);
    assert_eq!(with(|p| p.tracks.clear()), 8);
    assert_eq!(with(|p| p.states[7].last = 2), 9);
    assert_eq!(with(|p| p.transitions.push(step(0, 10, 0, 0))), 15);
    let mut tall = testing::generate::plans::chain(9);
    tall.windows.push(window(9, 1, 0));
    assert_eq!(refusal(&tall.encode()), 16);
}

#[test]
fn hundreds_of_windows_are_read() {
    let events = 1..=256;
    let mut plan = Records {
        tracks: vec![track(65_535)],
        states: vec![state(0, 0, 0)],
        transitions: events.map(|e| step(0, e, 0, 0)).collect(),
        windows: (0..256)
            .rev()
            .map(|n| window(n, i32::from(n), i32::from(n)))
            .collect(),
        rights: every_right(&[0]),
    };
    let bytes = plan.encode();
    assert_eq!(refusal(&bytes), 0);
    let mut words = begun(&bytes);
    assert_eq!(words[0], 7_198);
    for day in 0..256 {
        assert_eq!(moved(&bytes, &mut words, day as u16 + 1, day), Ok(1));
        assert_eq!(moved(&bytes, &mut words, day as u16 + 2, day), Ok(0));
    }
    plan.windows.push(window(0, 0, 0));
    assert_eq!(refusal(&plan.encode()), 25);
    plan.windows.resize(2_000, window(1, 0, 0));
    assert_eq!(refusal(&plan.encode()), 25);
    plan.states[0].last = 1;
    assert_eq!(refusal(&plan.encode()), 11);
}

#[test]
fn a_refused_window_prints_its_line_alone() {
    let plan = windowed(&[window(5, 0, 0)]).encode();
    assert_eq!(unwind(&plan, &[1]), ["R 25"]);
    assert_eq!(run(&plan, &[event(10), signal()]), ["R 25"]);
}

#[test]
fn a_window_counts_in_length_and_sum() {
    let plain = begun(&sample());
    let windowed = begun(&windowed(&[window(0, -1, 1)]).encode());
    assert_eq!(windowed[0], plain[0] + 14);
    // 14, 5, 0, the words of -1 and those of 1.
    assert_eq!(windowed[1], plain[1] + 14 + 5 - 2 + 1);
    assert_eq!(windowed[2..205], plain[2..205]);
}

#[test]
fn begin_writes_the_first_day_of_the_range() {
    let words = begun(&sample());
    assert_eq!(words[2..4], [0x53FB, 0xFFFE]);
    assert_eq!(ledger::day_of(&words), FIRST);
}

#[test]
fn days_are_two_words_low_word_first() {
    for day in [FIRST, -65_537, -65_536, -1, 0, 1, 65_535, 65_536, LAST] {
        let mut words = begun(&sample());
        assert_eq!(moved(&sample(), &mut words, 10, day), Ok(1));
        assert_eq!(i64::from(words[2]), i64::from(day) & 0xFFFF);
        assert_eq!(i64::from(words[3]), i64::from(day) >> 16 & 0xFFFF);
        assert_eq!(record::of_words([words[2], words[3]]), day);
    }
}

#[test]
fn an_equal_day_is_accepted_and_a_falling_one_is_26() {
    let plan = sample();
    let mut words = begun(&plan);
    assert_eq!(moved(&plan, &mut words, 10, 7), Ok(1));
    assert_eq!(moved(&plan, &mut words, 11, 7), Ok(1));
    let before = words.clone();
    for day in [6, 0, -7, FIRST, FIRST - 1, LAST + 1, i32::MIN, i32::MAX] {
        assert_eq!(moved(&plan, &mut words, 12, day), Err(26), "{day}");
    }
    assert_eq!(words, before);
    assert_eq!(moved(&plan, &mut words, 12, 8), Ok(1));
}

#[test]
fn a_begun_ledger_takes_every_day_of_the_range_and_no_other() {
    let plan = sample();
    for day in [FIRST, FIRST + 1, -1, 0, LAST - 1, LAST] {
        assert_eq!(moved(&plan, &mut begun(&plan), 10, day), Ok(1));
    }
    for day in [FIRST - 1, LAST + 1, i32::MIN, i32::MAX] {
        assert_eq!(moved(&plan, &mut begun(&plan), 10, day), Err(26));
    }
}

#[test]
fn the_day_is_kept_by_an_event_that_moves_none_and_by_no_other_call() {
    let plan = sample();
    let mut words = begun(&plan);
    assert_eq!(moved(&plan, &mut words, 99, 40), Ok(0));
    assert_eq!(words[2..4], [40, 0]);
    assert_eq!(moved(&plan, &mut words, 10, 39), Err(26));
    assert_eq!(moved(&plan, &mut words, 10, 40), Ok(1));
    assert_eq!(manager::signal(MAIN, &plan, &mut words, 1), Answer::Done(3));
    assert!(matches!(
        manager::fire(MAIN, &plan, &mut words, 0, 1),
        Answer::Done(_)
    ));
    assert_eq!(words[2..4], [40, 0]);
    // All roots are spent: an event moves none, and its day is kept.
    assert_eq!(moved(&plan, &mut words, 10, 41), Ok(0));
    assert_eq!(words[2..4], [41, 0]);
}

#[test]
fn a_refused_event_does_not_keep_its_day() {
    let plan = looping().encode();
    let mut words = begun(&plan);
    for _ in 0..32 {
        assert_eq!(moved(&plan, &mut words, 1, 5), Ok(1));
    }
    assert_eq!(moved(&plan, &mut words, 1, 9), Err(21));
    assert_eq!(moved(&plan, &mut words, 0, 9), Err(19));
    assert_eq!(words[2..4], [5, 0]);
    // A move with code 0, on a day before that of the refused one.
    assert_eq!(moved(&plan, &mut words, 3, 8), Ok(1));
    assert_eq!(words[2..4], [8, 0]);
}

#[test]
fn a_full_track_is_21_only_where_its_window_is_open() {
    let mut plan = looping();
    plan.windows.push(window(1, 10, 20));
    let plan = plan.encode();
    let mut words = begun(&plan);
    for _ in 0..32 {
        assert_eq!(moved(&plan, &mut words, 1, 5), Ok(1));
    }
    assert_eq!(moved(&plan, &mut words, 2, 9), Ok(0));
    assert_eq!(moved(&plan, &mut words, 2, 10), Err(21));
    assert_eq!(moved(&plan, &mut words, 2, 21), Ok(0));
}

/// The sample plan's ledger, over on day 3.
fn over() -> Vec<u16> {
    let mut words = begun(&sample());
    for event in [10, 11, 12, 14, 13] {
        assert_eq!(moved(&sample(), &mut words, event, 3), Ok(1));
    }
    words
}

#[test]
fn an_over_ledger_keeps_its_day_and_26_is_before_20_and_after_19() {
    let mut words = over();
    assert_eq!(words[..4], [182, 633, 3, 0]);
    assert_eq!(words[4..205], [0; 201]);
    assert_eq!(moved(&sample(), &mut words, 10, 2), Err(26));
    assert_eq!(moved(&sample(), &mut words, 10, LAST + 1), Err(26));
    assert_eq!(moved(&sample(), &mut words, 10, 3), Err(20));
    assert_eq!(moved(&sample(), &mut words, 0, 2), Err(19));
    assert_eq!(moved(&sample(), &mut words, 0, LAST + 1), Err(19));
    assert_eq!(words, over());
}

#[test]
fn a_day_out_of_range_is_18_on_an_over_ledger_too() {
    let plan = plan::read(&sample()).expect("accepted");
    let mut worked = begun(&sample());
    assert_eq!(moved(&sample(), &mut worked, 10, 0), Ok(1));
    for words in [over(), worked] {
        for day in [FIRST - 1, LAST + 1, i32::MIN, i32::MAX] {
            let mut words = words.clone();
            words[2..4].copy_from_slice(&record::words_of(day));
            let before = words.clone();
            assert_eq!(ledger::violated(MAIN, &plan, &words), [Clause::DayInRange]);
            let ready = manager::ready(MAIN, &sample(), &words);
            assert_eq!(ready, Answer::Refused(Refusal::Unsound));
            for event in [0, 10] {
                assert_eq!(moved(&sample(), &mut words, event, 0), Err(18));
                assert_eq!(moved(&sample(), &mut words, event, day), Err(18));
            }
            let signal = manager::signal(MAIN, &sample(), &mut words, 1);
            assert_eq!(signal, Answer::Refused(Refusal::Unsound));
            let fire = manager::fire(MAIN, &sample(), &mut words, 0, 1);
            assert_eq!(fire, Answer::Refused(Refusal::Unsound));
            assert!(manager::entries(MAIN, &sample(), &words, 0).is_empty());
            assert_eq!(words, before);
            assert_eq!(
                manager::begin(MAIN, &sample(), &mut words),
                Answer::Done(())
            );
            assert_eq!(words[2..4], [0x53FB, 0xFFFE]);
        }
        for day in [FIRST, LAST] {
            let mut words = words.clone();
            words[2..4].copy_from_slice(&record::words_of(day));
            assert_eq!(ledger::violated(MAIN, &plan, &words), []);
        }
    }
}

#[test]
fn another_plan_s_ledger_is_24_whatever_its_day() {
    let mut words = begun(&sample());
    words[2..4].copy_from_slice(&record::words_of(LAST + 1));
    words[1] += 1;
    assert_eq!(moved(&sample(), &mut words, 10, 0), Err(24));
}

#[test]
fn the_journal_goes_on_after_26() {
    let records = [
        event_on(10, 5),
        event_on(11, 4),
        event_on(11, LAST + 1),
        event_on(11, 5),
        signal(),
        fire(1),
        lowest(),
        event_on(99, 6),
        event_on(99, 5),
    ];
    let lines = run(&sample(), &records);
    assert_eq!(
        lines[1..],
        [
            "E 10 1 0", "R 26", "R 26", "E 11 1 0", "S 3", "F 1 51 -", "F 0 50 -", "E 99 0 0",
            "R 26", "H 0 2"
        ]
    );
}

#[test]
fn moves_are_judged_by_the_call_s_own_day_alone() {
    // The window has passed by the next day; the last accepted day is within.
    let plan = windowed(&[window(2, 0, 5)]).encode();
    let mut words = begun(&plan);
    assert_eq!(moved(&plan, &mut words, 10, 5), Ok(1));
    assert_eq!(moved(&plan, &mut words, 11, 6), Ok(0));
    let none = Moved {
        moved: 0,
        closed: 0,
    };
    let again = manager::event(MAIN, &plan, &mut words, 11, 7, 1);
    assert_eq!(again, Answer::Done(none));
}

#[test]
fn firing_and_deviating_know_no_window() {
    let mut plan = two_links();
    plan.windows = vec![window(0, 1, 1)];
    let records = [
        event_on(1, 1),
        event_on(99, 50),
        signal(),
        fire(0),
        event_on(1, 50),
    ];
    let lines = run(&plan.encode(), &records);
    assert_eq!(
        lines[1..],
        ["E 1 2 0", "E 99 0 0", "S 2", "F 0 50 0", "E 1 0 0", "H 1 1"]
    );
}
