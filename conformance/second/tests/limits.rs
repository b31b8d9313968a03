//! The limit as the caller's choice on each call: the words needed, where a
//! track's words stand, the count, when a track is full, and how many firings can
//! follow one another; at both settings, and at others.

mod common;

use common::*;
use second::journal;
use second::ledger::Entry;
use second::limit::Limit;
use second::manager::{self, Answer};
use second::paths;
use second::plan::{self, members, Records, NONE};
use second::refusal::Refusal;
use second::rules::Moved;

const READING_ROOM: Limit = Limit::READING_ROOM;

/// Both settings, and limits that no program has.
const ANY: [Limit; 8] = [
    Limit(0),
    Limit(1),
    Limit(2),
    Limit(3),
    Limit(8),
    Limit(32),
    Limit(33),
    Limit(100),
];

/// What stands in lent words that no call has written.
const UNWRITTEN: u16 = 0xABCD;

/// A plan, a caller's limit, and lent words.
struct Desk {
    limit: Limit,
    plan: Vec<u8>,
    words: Vec<u16>,
}

impl Desk {
    /// Begun at a limit, with five words beyond those needed.
    fn begun(limit: Limit, plan: &Records) -> Desk {
        let needed = needed(limit, plan.tracks.len());
        Desk::lent(limit, plan, needed + 5)
    }

    /// Begun with so many words.
    fn lent(limit: Limit, plan: &Records, words: usize) -> Desk {
        let mut desk = Desk {
            limit,
            plan: plan.encode(),
            words: vec![UNWRITTEN; words],
        };
        assert_eq!(desk.begin(), Answer::Done(()));
        desk
    }

    fn begin(&mut self) -> Answer<()> {
        manager::begin(self.limit, &self.plan, &mut self.words)
    }

    fn event(&mut self, event: u16) -> Answer<Moved> {
        manager::event(self.limit, &self.plan, &mut self.words, event, 0, SOCIETY)
    }

    fn signal(&mut self) -> Answer<u16> {
        manager::signal(self.limit, &self.plan, &mut self.words, SOCIETY)
    }

    fn fire(&mut self, track: u16) -> Answer<Entry> {
        manager::fire(self.limit, &self.plan, &mut self.words, track, SOCIETY)
    }

    fn ready(&self) -> Answer<u32> {
        manager::ready(self.limit, &self.plan, &self.words)
    }

    fn entries(&self, track: u16) -> &[u16] {
        manager::entries(self.limit, &self.plan, &self.words, track)
    }

    /// A track's words.
    fn track(&self, track: usize) -> &[u16] {
        let width = 3 + 2 * self.limit.entries();
        &self.words[4 + width * track..][..width]
    }

    /// The refusal of every call that gives a number; none changes a word.
    fn refusals(&mut self) -> [Option<Refusal>; 4] {
        let before = self.words.clone();
        let refusals = [
            refusal(self.event(1)),
            refusal(self.signal()),
            refusal(self.fire(0)),
            refusal(self.ready()),
        ];
        assert!(refusals.contains(&None) || self.words == before);
        refusals
    }

    /// Fires the lowest ready track until none is ready; the firings.
    fn fire_all(&mut self) -> usize {
        let mut fired = 0;
        while let Answer::Done(ready @ 1..) = self.ready() {
            let track = members(ready).next().expect("a ready track");
            assert!(matches!(self.fire(track as u16), Answer::Done(_)));
            fired += 1;
        }
        fired
    }
}

/// The words that so many tracks need.
fn needed(limit: Limit, tracks: usize) -> usize {
    4 + (3 + 2 * limit.entries()) * tracks
}

fn refusal<Figures>(answer: Answer<Figures>) -> Option<Refusal> {
    match answer {
        Answer::Done(_) => None,
        Answer::Refused(refusal) => Some(refusal),
    }
}

fn moved(moved: u16) -> Answer<Moved> {
    Answer::Done(Moved { moved, closed: 0 })
}

fn full() -> Answer<Moved> {
    Answer::Refused(Refusal::Full)
}

/// So many roots, each with a self-loop of code 7 under event 1.
fn loops(roots: u16) -> Records {
    let numbers: Vec<u16> = (0..roots).collect();
    Records {
        tracks: vec![track(NONE); usize::from(roots)],
        states: numbers.iter().map(|&t| state(t, 0, 0)).collect(),
        transitions: numbers.iter().map(|&s| step(s, 1, 7, s)).collect(),
        windows: vec![],
        rights: every_right(&numbers),
    }
}

/// A root that loops with code 7 under event 1, enters a hosting state by event 2
/// and has this replacement there; its branch ends by event 3.
fn hosted(replacement: u16) -> Records {
    Records {
        tracks: vec![track(NONE), track(1)],
        states: vec![
            state(0, 0, 0),
            state(0, 0, replacement),
            state(1, 0, 0),
            state(1, 1, 0),
        ],
        transitions: vec![step(0, 1, 7, 0), step(0, 2, 0, 1), step(2, 3, 0, 3)],
        windows: vec![],
        rights: every_right(&[0]),
    }
}

#[test]
fn the_two_settings_are_32_and_8() {
    assert_eq!(Limit::MAIN.entries(), 32);
    assert_eq!(Limit::READING_ROOM.entries(), 8);
    assert_eq!(Limit::MAIN.track_words(), 67);
    assert_eq!(Limit::READING_ROOM.track_words(), 19);
    assert_eq!(Limit::SETTINGS, [Limit(32), Limit(8)]);
}

#[test]
fn a_ledger_needs_4_words_and_3_and_twice_the_limit_for_each_track() {
    for limit in ANY {
        for tracks in [1, 2, 3, 32] {
            let plan = loops(tracks);
            let needed = needed(limit, usize::from(tracks));
            let mut desk = Desk::lent(limit, &plan, needed);
            assert_eq!(desk.event(7), moved(0));
            desk.words.pop();
            assert_eq!(desk.refusals(), [Some(Refusal::FewWords); 4]);
            assert_eq!(refusal(desk.begin()), Some(Refusal::FewWords));
            assert!(desk.entries(0).is_empty());
        }
    }
}

#[test]
fn at_8_a_track_has_19_words_and_at_32_67() {
    for (limit, words) in [(READING_ROOM, [23, 42, 61]), (MAIN, [71, 138, 205])] {
        for (tracks, needed) in (1..).zip(words) {
            let plan = loops(tracks).encode();
            for (lent, answer) in [
                (needed, Answer::Done(())),
                (needed - 1, Answer::Refused(Refusal::FewWords)),
            ] {
                let mut words = vec![0; lent];
                assert_eq!(manager::begin(limit, &plan, &mut words), answer);
            }
        }
    }
}

#[test]
fn too_few_words_are_17_before_24_and_18() {
    let mut desk = Desk::begun(READING_ROOM, &sample_records());
    desk.words.truncate(60);
    desk.words[0] = 0;
    desk.words[4] = 3;
    assert_eq!(desk.refusals(), [Some(Refusal::FewWords); 4]);
    desk.words.push(0);
    assert_eq!(desk.refusals(), [Some(Refusal::OtherPlan); 4]);
    desk.words[0] = 182;
    assert_eq!(desk.refusals(), [Some(Refusal::Unsound); 4]);
}

#[test]
fn as_many_entries_install_as_the_limit_says_and_one_more_is_21() {
    for limit in ANY {
        let mut desk = Desk::begun(limit, &looping());
        for held in 1..=limit.entries() {
            assert_eq!(desk.event(1), moved(1));
            assert_eq!(usize::from(desk.track(0)[2]), held);
            assert_eq!(desk.entries(0), [7, NONE].repeat(held));
        }
        let before = desk.words.clone();
        assert_eq!(desk.event(1), full());
        // An entry that the finish would drop needs room all the same.
        assert_eq!(desk.event(2), full());
        assert_eq!(desk.words, before);
        // A move without a code does not.
        assert_eq!(desk.event(3), moved(1));
        assert_eq!(desk.event(1), Answer::Refused(Refusal::Over));
    }
}

#[test]
fn an_8th_entry_installs_and_a_9th_is_21_at_8() {
    let mut desk = Desk::begun(READING_ROOM, &looping());
    assert_eq!([(); 8].map(|()| desk.event(1)), [moved(1); 8]);
    assert_eq!(desk.words[4..7], [1, 0, 8]);
    assert_eq!(desk.words[7..23], [7, NONE].repeat(8));
    assert_eq!(desk.words[23..], [UNWRITTEN; 5]);
    assert_eq!(desk.event(1), full());
}

#[test]
fn a_32nd_entry_installs_and_a_33rd_is_21_at_32() {
    let mut desk = Desk::begun(MAIN, &looping());
    assert_eq!([(); 32].map(|()| desk.event(1)), [moved(1); 32]);
    assert_eq!(desk.words[4..7], [1, 0, 32]);
    assert_eq!(desk.words[7..71], [7, NONE].repeat(32));
    assert_eq!(desk.words[71..], [UNWRITTEN; 5]);
    assert_eq!(desk.event(1), full());
}

#[test]
fn a_full_track_asks_no_room_of_another() {
    let mut plan = loops(2);
    plan.transitions.push(step(0, 2, 7, 0));
    plan.transitions.push(step(1, 3, 7, 1));
    let mut desk = Desk::begun(READING_ROOM, &plan);
    assert_eq!([(); 8].map(|()| desk.event(3)), [moved(1); 8]);
    assert_eq!(desk.event(3), full());
    // Event 1 gives both an entry, so it is 21 for the second's sake.
    assert_eq!(desk.event(1), full());
    assert_eq!(desk.event(2), moved(1));
    assert_eq!((desk.track(0)[2], desk.track(1)[2]), (1, 8));
}

#[test]
fn a_replacement_needs_room_and_replacement_0_does_not() {
    let closed = Answer::Done(Moved {
        moved: 1,
        closed: 1,
    });
    for limit in ANY {
        for (replacement, answer) in [(90, full()), (0, closed)] {
            let mut desk = Desk::begun(limit, &hosted(replacement));
            for _ in 0..limit.entries() {
                assert_eq!(desk.event(1), moved(1));
            }
            assert_eq!(desk.event(2), moved(1));
            assert_eq!(desk.event(3), answer);
        }
    }
    let mut desk = Desk::begun(READING_ROOM, &hosted(90));
    assert_eq!([(); 7].map(|()| desk.event(1)), [moved(1); 7]);
    assert_eq!(desk.event(2), moved(1));
    assert_eq!(desk.event(3), closed);
    assert_eq!(desk.entries(0)[14..], [90, NONE]);
}

#[test]
fn words_beyond_are_never_touched() {
    // As many as the main program's limit needs, at the reading rooms'.
    let mut desk = Desk::lent(READING_ROOM, &sample_records(), 205);
    let beyond = [UNWRITTEN; 205 - 61];
    for event in [10, 11, 12] {
        assert_eq!(desk.event(event), moved(1));
        assert_eq!(desk.words[61..], beyond);
    }
    assert_eq!(desk.signal(), Answer::Done(3));
    assert_eq!(desk.words[61..], beyond);
    assert_eq!(desk.fire_all(), 3);
    assert_eq!(desk.words[61..], beyond);
    assert_eq!(desk.fire(0), Answer::Refused(Refusal::NotReady));
    assert_eq!(desk.begin(), Answer::Done(()));
    assert_eq!(desk.words[61..], beyond);
}

#[test]
fn words_beyond_stay_where_the_finish_puts_all_to_sleep() {
    let mut desk = Desk::lent(READING_ROOM, &sample_records(), 205);
    for event in [10, 11, 12, 14, 13] {
        assert!(matches!(desk.event(event), Answer::Done(_)));
    }
    assert_eq!(desk.words[..4], [182, 633, 0, 0]);
    assert_eq!(desk.words[4..61], [0; 57]);
    assert_eq!(desk.words[61..], [UNWRITTEN; 144]);
    assert_eq!(desk.signal(), Answer::Refused(Refusal::Over));
}

#[test]
fn words_beyond_are_not_judged() {
    let mut desk = Desk::begun(READING_ROOM, &loops(2));
    for word in [0, 1, 3, 65535] {
        desk.words[42..].fill(word);
        assert_eq!(desk.ready(), Answer::Done(0));
    }
}

#[test]
fn the_sample_s_ledger_is_laid_out_by_19s_at_8() {
    let mut desk = Desk::begun(READING_ROOM, &sample_records());
    assert_eq!(desk.words[..4], [182, 633, 21499, 65534]);
    for event in [10, 11, 12] {
        assert_eq!(desk.event(event), moved(1));
    }
    assert_eq!(desk.words[..4], [182, 633, 0, 0]);
    assert_eq!(desk.words[4..9], [1, 1, 1, 50, NONE]);
    assert_eq!(desk.words[23..28], [1, 4, 1, 51, NONE]);
    assert_eq!(desk.words[42..47], [1, 6, 1, 52, NONE]);
    let rest = [9..23, 28..42, 47..61];
    assert!(rest.into_iter().all(|at| desk.words[at] == [0; 14]));
}

#[test]
fn entries_are_the_callers_own_words_at_8() {
    let mut desk = Desk::begun(READING_ROOM, &sample_records());
    for event in [10, 11, 12, 14] {
        assert!(matches!(desk.event(event), Answer::Done(_)));
    }
    assert_eq!(desk.entries(0), [50, NONE, 90, NONE]);
    assert_eq!(desk.entries(0).as_ptr(), desk.words[7..].as_ptr());
    assert!(desk.entries(1).is_empty() && desk.entries(3).is_empty());
    let mut desk = Desk::begun(READING_ROOM, &loops(3));
    assert_eq!([(); 8].map(|()| desk.event(1)), [moved(3); 8]);
    for track in 0..3 {
        assert_eq!(desk.entries(track), [7, NONE].repeat(8));
        let first = &desk.words[7 + 19 * usize::from(track)..];
        assert_eq!(desk.entries(track).as_ptr(), first.as_ptr());
    }
}

/// The answers of the paper's runs under P, at a limit.
fn answers_of_p(limit: Limit) -> Vec<String> {
    let runs: [&[u16]; 5] = [
        &[13],
        &[10, 13],
        &[10, 11, 12, 14],
        &[10, 11, 12, 14, 13],
        &[10],
    ];
    let mut answers = Vec::new();
    for events in runs {
        let mut desk = Desk::begun(limit, &sample_records());
        for &event in events {
            answers.push(format!("{:?}", desk.event(event)));
        }
        answers.push(format!("{:?}", desk.fire(0)));
        answers.push(format!("{:?} {:?}", desk.signal(), desk.ready()));
        for track in [0, 1, 2, 0, 0] {
            answers.push(format!("{:?} {:?}", desk.entries(track), desk.ready()));
            answers.push(format!("{:?}", desk.fire(track)));
        }
    }
    answers
}

#[test]
fn the_paper_s_runs_have_the_same_answers_at_8_as_at_32() {
    let at_32 = answers_of_p(MAIN);
    assert!(at_32.len() > 60);
    // No track of these runs holds more than two.
    for limit in [2, 3, 8, 33, 100] {
        assert_eq!(answers_of_p(Limit(limit)), at_32);
    }
    assert_ne!(answers_of_p(Limit(1)), at_32);
}

#[test]
fn the_sample_run_at_8_prints_its_ten_lines() {
    let records = [[event(10), event(11), event(12), signal()], [lowest(); 4]].concat();
    let bytes = journal(&records);
    let at_8 = journal::unwind_at(READING_ROOM, &sample(), &bytes);
    assert_eq!(at_8, journal::unwind(&sample(), &bytes));
    assert!(at_8.ends_with(b"S 3\nF 1 51 -\nF 2 52 -\nF 0 50 -\nR 22\nH 0 3\n"));
}

#[test]
fn the_program_s_limit_is_32() {
    let events = journal(&[event(1); 33]);
    let text = |limit, name: &str| {
        let lines = journal::unwind_at(limit, &looping().encode(), &events);
        let lines = String::from_utf8(lines).expect("text");
        lines.lines().filter(|line| line.starts_with(name)).count()
    };
    assert_eq!((text(MAIN, "E "), text(MAIN, "R 21")), (32, 1));
    let at_8 = (text(READING_ROOM, "E "), text(READING_ROOM, "R 21"));
    assert_eq!(at_8, (8, 25));
    assert_eq!(
        journal::unwind(&looping().encode(), &events),
        journal::unwind_at(MAIN, &looping().encode(), &events)
    );
}

#[test]
fn as_many_firings_follow_one_another_as_limit_times_tracks_and_no_more() {
    for limit in ANY {
        for roots in [1, 2, 5] {
            let mut desk = Desk::begun(limit, &loops(roots));
            for _ in 0..limit.entries() {
                assert_eq!(desk.event(1), moved(roots));
            }
            assert_eq!(desk.event(1), full());
            assert_eq!(desk.signal(), Answer::Done(roots));
            let bound = limit.entries() * usize::from(roots);
            assert_eq!(desk.fire_all(), bound);
            assert_eq!(desk.fire(0), Answer::Refused(Refusal::NotReady));
        }
    }
}

#[test]
fn a_withdrawal_at_8_has_as_many_firings_as_entries_held() {
    let mut desk = Desk::begun(READING_ROOM, &branching_links());
    for number in [1, 5, 6, 6, 6, 6, 6, 6, 6, 6, 9, 2] {
        assert!(matches!(desk.event(number), Answer::Done(_)));
    }
    assert_eq!(desk.event(6), full());
    let held = |desk: &Desk| (0..5).map(|t| desk.entries(t).len() / 2).sum::<usize>();
    assert_eq!(held(&desk), 13);
    assert_eq!(desk.entries(3).len(), 16);
    assert_eq!(desk.signal(), Answer::Done(5));
    assert_eq!(held(&desk), 13);
    assert_eq!(desk.fire_all(), 13);
    assert_eq!(held(&desk), 0);
    assert_eq!(desk.signal(), Answer::Done(0));
}

/// The words of one track with this count, and a good pair in every place.
fn with_count(limit: Limit, count: u16) -> Desk {
    let mut desk = Desk::begun(limit, &looping());
    let end = needed(limit, 1);
    for pair in desk.words[7..end].chunks_exact_mut(2) {
        pair.copy_from_slice(&[7, NONE]);
    }
    desk.words[6] = count;
    desk
}

#[test]
fn a_count_above_the_limit_is_18() {
    for limit in ANY {
        let next = limit.0 + 1;
        for count in [next, next + 1, 2 * next, 0x8000, 65535] {
            let mut desk = with_count(limit, count);
            assert_eq!(desk.refusals(), [Some(Refusal::Unsound); 4]);
            assert!(desk.entries(0).is_empty());
        }
        assert_eq!(with_count(limit, limit.0).ready(), Answer::Done(0));
    }
}

#[test]
fn a_count_of_9_is_18_at_8_whatever_stands_behind() {
    for count in 9..=33 {
        let mut desk = with_count(READING_ROOM, count);
        // Pairs stand where a greater limit would have them.
        desk.words.extend([7, NONE].repeat(32));
        desk.words[23..87].copy_from_slice(&[7, NONE].repeat(32));
        assert_eq!(desk.refusals(), [Some(Refusal::Unsound); 4], "{count}");
    }
    let mut desk = with_count(MAIN, 9);
    desk.words[25..71].fill(0);
    assert_eq!(desk.ready(), Answer::Done(0));
}

#[test]
fn unused_pairs_are_zero_up_to_the_limit() {
    for limit in ANY {
        let plan = loops(2);
        let width = 3 + 2 * limit.entries();
        let desk = || Desk::begun(limit, &plan);
        for at in 7..4 + width {
            let mut soiled = desk();
            soiled.words[at] = 1;
            assert_eq!(soiled.refusals(), [Some(Refusal::Unsound); 4], "{at}");
        }
        // Behind the first track's pairs is the second track's mode.
        let mut turned = desk();
        assert_eq!(turned.words[4 + width], 1);
        turned.words[4 + width] = 2;
        assert_eq!(turned.ready(), Answer::Done(0));
        // Behind the second track's, words beyond.
        let mut beyond = desk();
        beyond.words[4 + 2 * width] = 1;
        assert_eq!(beyond.ready(), Answer::Done(0));
    }
}

#[test]
fn an_asleep_track_is_zero_in_all_its_words_at_8() {
    for at in 24..42 {
        let mut desk = Desk::begun(READING_ROOM, &sample_records());
        assert_eq!(desk.ready(), Answer::Done(0));
        desk.words[at] = 1;
        assert_eq!(desk.refusals(), [Some(Refusal::Unsound); 4], "{at}");
    }
}

#[test]
fn ready_and_firing_at_8_take_the_newest_entry_of_a_full_track() {
    let mut plan = loops(2);
    plan.transitions.push(step(1, 2, 60, 1));
    let mut desk = Desk::begun(READING_ROOM, &plan);
    assert_eq!([(); 7].map(|()| desk.event(1)), [moved(2); 7]);
    assert_eq!(desk.event(2), moved(1));
    assert_eq!(desk.signal(), Answer::Done(2));
    assert_eq!(desk.ready(), Answer::Done(3));
    let newest = Entry {
        code: 60,
        deviation: NONE,
    };
    assert_eq!(desk.fire(1), Answer::Done(newest));
    assert_eq!(desk.track(1)[..3], [2, 1, 7]);
    assert_eq!(desk.track(1)[17..], [0, 0]);
    assert_eq!(desk.words[42..], [UNWRITTEN; 5]);
}

#[test]
fn limit_0_has_no_room_for_any_entry() {
    let limit = Limit(0);
    let mut desk = Desk::begun(limit, &looping());
    assert_eq!(
        desk.words[4..],
        [1, 0, 0, 0xABCD, 0xABCD, 0xABCD, 0xABCD, 0xABCD]
    );
    assert_eq!(desk.event(1), full());
    assert_eq!(desk.event(7), moved(0));
    assert_eq!(desk.signal(), Answer::Done(1));
    assert_eq!(desk.ready(), Answer::Done(0));
    assert_eq!(desk.fire(0), Answer::Refused(Refusal::NotReady));
    assert!(desk.entries(0).is_empty());
    desk.words[6] = 1;
    assert_eq!(desk.refusals(), [Some(Refusal::Unsound); 4]);
    // A scope that a signal turns holds nothing, so it is abandoned at once.
    let mut plan = sample_records();
    plan.transitions.iter_mut().for_each(|x| x.code = 0);
    let mut desk = Desk::begun(limit, &plan);
    assert_eq!([10, 11, 12].map(|e| desk.event(e)), [moved(1); 3]);
    assert_eq!(desk.event(14), full());
    assert_eq!(desk.signal(), Answer::Done(3));
    assert_eq!(desk.words[4..13], [2, 1, 0, 0, 0, 0, 0, 0, 0]);
}

#[test]
fn the_greatest_limit_that_a_word_counts() {
    let mut desk = Desk::begun(Limit(65535), &looping());
    assert_eq!(desk.words.len(), 4 + 131_073 + 5);
    assert_eq!([(); 40].map(|()| desk.event(1)), [moved(1); 40]);
    desk.words[6] = 65535;
    let pairs = [7, NONE].repeat(65535);
    desk.words[7..131_077].copy_from_slice(&pairs);
    assert_eq!(desk.event(1), full());
    assert_eq!(desk.entries(0).len(), 131_070);
    assert_eq!(desk.signal(), Answer::Done(1));
    assert!(matches!(desk.fire(0), Answer::Done(_)));
    assert_eq!(desk.track(0)[2], 65534);
}

#[test]
fn no_word_names_the_limit() {
    let begun = ANY.map(|limit| Desk::begun(limit, &sample_records()).words);
    for words in &begun {
        assert_eq!(words[..4], begun[0][..4]);
        assert_eq!(words[4..7], [1, 0, 0]);
    }
    // One track with one entry has the same words, but for unused pairs.
    for limit in [1, 8, 32, 100] {
        let mut desk = Desk::begun(Limit(limit), &looping());
        assert_eq!(desk.event(1), moved(1));
        assert_eq!(desk.words[4..9], [1, 0, 1, 7, NONE]);
    }
}

#[test]
fn a_begin_takes_any_words_at_either_limit() {
    for (first, second) in [(MAIN, READING_ROOM), (READING_ROOM, MAIN)] {
        let mut desk = Desk::lent(first, &sample_records(), 207);
        for event in [10, 11, 12] {
            assert_eq!(desk.event(event), moved(1));
        }
        let before = desk.words.clone();
        desk.limit = second;
        assert_eq!(desk.begin(), Answer::Done(()));
        let needed = needed(second, 3);
        assert_eq!(desk.words[4..7], [1, 0, 0]);
        assert_eq!(desk.words[7..needed], vec![0; needed - 7]);
        assert_eq!(desk.words[needed..], before[needed..]);
    }
}

#[test]
fn a_figure_above_either_limit_is_told_as_it_is() {
    let steps = (0..40).map(|s| step(s, 1, 7, s + 1));
    let plan = Records {
        tracks: vec![track(NONE)],
        states: vec![state(0, 0, 0); 41],
        transitions: steps.collect(),
        windows: vec![],
        rights: every_right(&[0]),
    };
    let read = plan::read(&plan.encode()).expect("accepted");
    let figure = paths::largest(&read, 0).expect("bounded").figure;
    assert_eq!(figure, 40);
    // No history makes the track hold more than the limit.
    for limit in ANY {
        let mut desk = Desk::begun(limit, &plan);
        let taken = (0..40).filter(|_| desk.event(1) == moved(1)).count();
        assert_eq!(taken, limit.entries().min(40));
        assert_eq!(desk.entries(0).len(), 2 * taken);
    }
}
