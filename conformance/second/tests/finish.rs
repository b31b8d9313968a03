//! Finish: every root ended or spent, at least one ended; after an event and
//! after a firing, and what soundness makes of it; after a signal, see rights. An ended root is forward in a
//! final state; a spent one is undoing, with nothing held and no open scope.

mod common;

use common::*;
use second::ledger::{self, track_words, track_words_mut, Clause, Entry};
use second::manager::{self, Answer};
use second::plan::{self, Records, NONE};
use second::refusal::Refusal;
use second::rules::Moved;

/// A plan with its ledger, which has three words beyond.
struct Desk {
    plan: Vec<u8>,
    words: Vec<u16>,
}

impl Desk {
    fn begun(plan: &Records) -> Desk {
        let plan = plan.encode();
        let tracks = plan::read(&plan).expect("accepted").track_count();
        let mut words = vec![0xABCD; MAIN.track_start(tracks) + 3];
        assert_eq!(manager::begin(MAIN, &plan, &mut words), Answer::Done(()));
        Desk { plan, words }
    }

    /// An event that moves and closes so many.
    fn event(&mut self, event: u16, moved: u16, closed: u16) {
        let answer = manager::event(MAIN, &self.plan, &mut self.words, event, 0, 1);
        assert_eq!(answer, Answer::Done(Moved { moved, closed }));
    }

    fn signal(&mut self, turned: u16) {
        let answer = manager::signal(MAIN, &self.plan, &mut self.words, 1);
        assert_eq!(answer, Answer::Done(turned));
    }

    /// A firing that answers this code and deviation.
    fn fire(&mut self, track: u16, code: u16, deviation: u16) {
        let answer = manager::fire(MAIN, &self.plan, &mut self.words, track, 1);
        assert_eq!(answer, Answer::Done(Entry { code, deviation }));
    }

    fn ready(&self, bits: u32) {
        let answer = manager::ready(MAIN, &self.plan, &self.words);
        assert_eq!(answer, Answer::Done(bits));
    }

    /// Mode, state and count of a track.
    fn track(&self, track: usize) -> [u16; 3] {
        let own = track_words(MAIN, &self.words, track);
        [own[0], own[1], own[2]]
    }

    /// The three calls are refused with this number and change no word.
    fn refused(&mut self, refusal: Refusal) {
        let before = self.words.clone();
        let number = refusal.number();
        let event = manager::event(MAIN, &self.plan, &mut self.words, 1, 0, 1);
        assert_eq!(event, Answer::Refused(refusal), "event: {number}");
        let signal = manager::signal(MAIN, &self.plan, &mut self.words, 1);
        assert_eq!(signal, Answer::Refused(refusal), "signal: {number}");
        for track in [0, 1, 99] {
            let fire = manager::fire(MAIN, &self.plan, &mut self.words, track, 1);
            assert_eq!(fire, Answer::Refused(refusal), "fire: {number}");
        }
        assert_eq!(self.words, before);
    }

    /// All asleep behind the plan's leading words, and refused as 20.
    fn over(&mut self) {
        let plan = plan::read(&self.plan).expect("accepted");
        let needed = ledger::words_needed(MAIN, &plan);
        assert_eq!(self.words[..2], [plan.length(), plan.sum()]);
        assert!(self.words[4..needed].iter().all(|&w| w == 0));
        assert_eq!(self.words[needed..], [0xABCD; 3]);
        self.ready(0);
        self.refused(Refusal::Over);
    }
}

/// `two_links` with root 0 deviated and both roots as the signal left them
/// otherwise: root 0 forward in state 0, root 1 holding 60.
fn deviated() -> Desk {
    let mut desk = Desk::begun(&two_links());
    desk.event(1, 2, 0);
    desk.signal(2);
    desk.fire(0, 50, 0);
    assert_eq!([desk.track(0), desk.track(1)], [[1, 0, 0], [2, 4, 1]]);
    desk
}

#[test]
fn an_event_ends_the_last_forward_root_beside_a_spent_one() {
    let mut desk = deviated();
    desk.fire(1, 60, NONE);
    assert_eq!([desk.track(0), desk.track(1)], [[1, 0, 0], [2, 4, 0]]);
    desk.event(1, 1, 0);
    assert_eq!(desk.track(0), [1, 1, 1]);
    desk.event(2, 1, 0);
    desk.over();
}

#[test]
fn an_event_without_a_code_ends_it_too() {
    let mut desk = deviated();
    desk.fire(1, 60, NONE);
    desk.event(3, 1, 0);
    desk.over();
}

#[test]
fn a_firing_of_the_last_entry_ends_it_and_answers_as_ever() {
    let mut desk = deviated();
    desk.event(1, 1, 0);
    desk.event(2, 1, 0);
    assert_eq!([desk.track(0), desk.track(1)], [[1, 2, 2], [2, 4, 1]]);
    desk.ready(0b10);
    // The entries 50 and 51 of root 0 are dropped unfired.
    desk.fire(1, 60, NONE);
    desk.over();
}

#[test]
fn a_root_that_holds_another_entry_is_not_spent() {
    let mut plan = two_links();
    plan.transitions.push(step(3, 9, 61, 3));
    let mut desk = Desk::begun(&plan);
    desk.event(9, 1, 0);
    desk.event(1, 2, 0);
    desk.signal(2);
    desk.fire(0, 50, 0);
    desk.event(3, 1, 0);
    assert_eq!([desk.track(0), desk.track(1)], [[1, 2, 0], [2, 4, 2]]);
    desk.fire(1, 60, NONE);
    assert_eq!([desk.track(0), desk.track(1)], [[1, 2, 0], [2, 4, 1]]);
    desk.ready(0b10);
    desk.event(2, 0, 0);
    desk.fire(1, 61, NONE);
    desk.over();
}

#[test]
fn all_roots_taken_back_is_not_over() {
    let mut desk = Desk::begun(&two_links());
    desk.signal(2);
    assert_eq!([desk.track(0), desk.track(1)], [[2, 0, 0], [2, 3, 0]]);
    desk.ready(0);
    desk.event(1, 0, 0);
    desk.signal(0);
    for track in [0, 1, 2] {
        let answer = manager::fire(MAIN, &desk.plan, &mut desk.words, track, 1);
        assert_eq!(answer, Answer::Refused(Refusal::NotReady));
    }
    assert_eq!([desk.track(0), desk.track(1)], [[2, 0, 0], [2, 3, 0]]);
}

#[test]
fn the_firing_that_takes_the_last_root_back_is_not_the_end() {
    let mut plan = two_links();
    plan.transitions[0].deviation = NONE;
    let mut desk = Desk::begun(&plan);
    desk.event(1, 2, 0);
    desk.signal(2);
    desk.fire(1, 60, NONE);
    desk.fire(0, 50, NONE);
    assert_eq!([desk.track(0), desk.track(1)], [[2, 1, 0], [2, 4, 0]]);
    desk.ready(0);
    desk.signal(0);
}

#[test]
fn one_root_taken_back_in_its_final_state_is_not_over() {
    let mut plan = looping();
    plan.tracks.push(track(NONE));
    plan.states.push(state(1, 0, 0));
    plan.rights = every_right(&[0, 1]);
    let mut desk = Desk::begun(&plan);
    desk.event(2, 1, 0);
    desk.signal(2);
    desk.fire(0, 8, NONE);
    assert_eq!([desk.track(0), desk.track(1)], [[2, 1, 0], [2, 2, 0]]);
    desk.signal(0);
}

#[test]
fn a_root_undoing_in_its_final_state_is_spent_beside_an_ended_one() {
    let mut plan = two_links();
    plan.transitions[3].destination = 5;
    let mut desk = Desk::begun(&plan);
    desk.event(1, 2, 0);
    desk.signal(2);
    desk.fire(0, 50, 0);
    desk.event(3, 1, 0);
    assert_eq!([desk.track(0), desk.track(1)], [[1, 2, 0], [2, 5, 1]]);
    desk.fire(1, 60, NONE);
    desk.over();
}

#[test]
fn a_signal_over_all_roots_turns_an_ended_one_and_is_not_the_end() {
    let mut desk = deviated();
    desk.event(3, 1, 0);
    desk.signal(1);
    assert_eq!([desk.track(0), desk.track(1)], [[2, 2, 0], [2, 4, 1]]);
    desk.fire(1, 60, NONE);
    assert_eq!([desk.track(0), desk.track(1)], [[2, 2, 0], [2, 4, 0]]);
    desk.ready(0);
    desk.signal(0);
}

#[test]
fn a_firing_that_deviates_is_not_the_end() {
    let mut plan = two_links();
    plan.transitions[3].deviation = 3;
    let mut desk = Desk::begun(&plan);
    desk.event(1, 2, 0);
    desk.signal(2);
    desk.fire(0, 50, 0);
    desk.event(3, 1, 0);
    desk.fire(1, 60, 3);
    assert_eq!([desk.track(0), desk.track(1)], [[1, 2, 0], [1, 3, 0]]);
    // Both forward now: the last one to end is the end.
    desk.event(1, 1, 0);
    desk.event(4, 1, 0);
    desk.over();
}

/// `scoped_links` with root 0 ended and root 1 undoing, track 3 holding 90; root
/// 1 entered its scope with this code.
fn scope_left(code: u16) -> Desk {
    let mut desk = Desk::begun(&scoped_links(code));
    desk.event(1, 2, 0);
    desk.event(5, 1, 0);
    desk.event(6, 1, 0);
    desk.signal(4);
    desk.fire(0, 50, 0);
    desk.event(1, 1, 0);
    desk.event(2, 1, 0);
    desk
}

#[test]
fn an_open_scope_keeps_a_root_that_holds_nothing_from_being_spent() {
    let mut desk = scope_left(0);
    let tracks = [0, 1, 2, 3].map(|t| desk.track(t));
    assert_eq!(tracks, [[1, 2, 2], [2, 4, 0], [2, 7, 0], [2, 9, 1]]);
    desk.ready(0b1000);
    desk.event(9, 0, 0);
    assert_eq!([0, 1, 2, 3].map(|t| desk.track(t)), tracks);
}

#[test]
fn a_firing_that_abandons_the_last_scope_ends_it() {
    let mut desk = scope_left(0);
    // Two scopes are abandoned, then the roots are as finish asks.
    desk.fire(3, 90, NONE);
    desk.over();
}

#[test]
fn an_entry_of_the_host_is_left_when_its_scope_is_abandoned() {
    let mut desk = scope_left(60);
    desk.fire(3, 90, NONE);
    let tracks = [0, 1, 2, 3].map(|t| desk.track(t));
    assert_eq!(tracks, [[1, 2, 2], [2, 4, 1], [0, 0, 0], [0, 0, 0]]);
    desk.ready(0b10);
    desk.fire(1, 60, NONE);
    desk.over();
}

#[test]
fn a_scope_of_the_spent_root_may_have_been_abandoned_before() {
    let mut desk = Desk::begun(&scoped_links(0));
    desk.event(1, 2, 0);
    desk.signal(3);
    // Root 1 stands in its hosting state, whose scope is asleep.
    assert_eq!([desk.track(1), desk.track(2)], [[2, 4, 0], [0, 0, 0]]);
    desk.fire(0, 50, 0);
    desk.event(3, 1, 0);
    desk.over();
}

#[test]
fn a_closing_is_not_the_end_since_its_host_has_not_ended() {
    let mut plan = scoped_links(60);
    plan.transitions[0].deviation = NONE;
    plan.transitions[3].deviation = 4;
    let mut desk = Desk::begun(&plan);
    desk.event(1, 2, 0);
    desk.signal(3);
    desk.fire(0, 50, NONE);
    desk.fire(1, 60, 4);
    assert_eq!([0, 1, 2].map(|t| desk.track(t)[0]), [2, 1, 1]);
    desk.event(5, 1, 0);
    desk.event(7, 1, 1);
    desk.event(8, 1, 1);
    assert_eq!([desk.track(0), desk.track(1)], [[2, 1, 0], [1, 4, 1]]);
    desk.event(4, 1, 0);
    desk.over();
}

#[test]
fn an_entry_that_finish_would_drop_still_needs_room() {
    let mut desk = Desk::begun(&looping_link());
    desk.event(9, 1, 0);
    desk.signal(2);
    desk.fire(0, 50, 0);
    for _ in 0..32 {
        desk.event(1, 1, 0);
    }
    assert_eq!([desk.track(0), desk.track(1)], [[1, 0, 32], [2, 2, 0]]);
    let before = desk.words.clone();
    let answer = manager::event(MAIN, &desk.plan, &mut desk.words, 2, 0, 1);
    assert_eq!(answer, Answer::Refused(Refusal::Full));
    assert_eq!(desk.words, before);
    desk.event(3, 1, 0);
    desk.over();
}

#[test]
fn one_event_may_end_several_roots_beside_a_spent_one() {
    let mut desk = Desk::begun(&three_links());
    desk.event(1, 2, 0);
    desk.signal(3);
    desk.fire(1, 60, 3);
    desk.fire(0, 50, 0);
    assert_eq!([0, 1, 2].map(|t| desk.track(t)[0]), [1, 1, 2]);
    desk.event(3, 2, 0);
    desk.over();
}

/// How a root of `standing` stands.
#[derive(Clone, Copy, Debug, PartialEq)]
enum Standing {
    Ended,
    EndedHolding,
    Spent,
    Holding,
    ScopeOpen,
    Forward,
}

const STANDINGS: [Standing; 6] = [
    Standing::Ended,
    Standing::EndedHolding,
    Standing::Spent,
    Standing::Holding,
    Standing::ScopeOpen,
    Standing::Forward,
];

/// Three roots, each with a first state that hosts one track and a final one.
fn three_roots() -> Records {
    let hosts = [NONE, NONE, NONE, 0, 2, 4];
    let roots = (0..6).map(|n| state(n / 2, n % 2, 0));
    let hosted = (3..6).map(|t| state(t, 0, 0));
    Records {
        tracks: hosts.map(track).to_vec(),
        states: roots.chain(hosted).collect(),
        transitions: vec![],
        windows: vec![],
        rights: every_right(&[0, 1, 2]),
    }
}

/// Writes a root and its hosted track.
fn stand(words: &mut [u16], root: usize, standing: Standing) {
    let first = 2 * root as u16;
    let own = match standing {
        Standing::Ended => vec![1, first + 1, 0],
        Standing::EndedHolding => vec![1, first + 1, 1, 7, NONE],
        Standing::Spent | Standing::ScopeOpen => vec![2, first, 0],
        Standing::Holding => vec![2, first, 1, 7, first],
        Standing::Forward => vec![1, first, 0],
    };
    track_words_mut(MAIN, words, root)[..own.len()].copy_from_slice(&own);
    if standing == Standing::ScopeOpen {
        let hosted = [2, 6 + root as u16, 1, 8, NONE];
        track_words_mut(MAIN, words, 3 + root)[..5].copy_from_slice(&hosted);
    }
}

#[test]
fn soundness_asks_that_finish_is_not_left_to_do() {
    let bytes = three_roots().encode();
    let plan = plan::read(&bytes).expect("accepted");
    let (mut left, mut sound) = (0, 0);
    for code in 0..216 {
        let standings = [code / 36, code / 6 % 6, code % 6].map(|n| STANDINGS[n]);
        let mut words = vec![0; ledger::words_needed(MAIN, &plan)];
        manager::begin(MAIN, &bytes, &mut words);
        words[4..].fill(0);
        for (root, &standing) in standings.iter().enumerate() {
            stand(&mut words, root, standing);
        }
        let ended = |s: &Standing| matches!(s, Standing::Ended | Standing::EndedHolding);
        let spent = standings.iter().filter(|&s| *s == Standing::Spent).count();
        let ended = standings.iter().filter(|s| ended(s)).count();
        let violated = ledger::violated(MAIN, &plan, &words);
        let ready = manager::ready(MAIN, &bytes, &words);
        if ended > 0 && ended + spent == 3 {
            assert_eq!(violated, [Clause::NoFinishLeft], "{standings:?}");
            assert_eq!(ready, Answer::Refused(Refusal::Unsound));
            left += 1;
        } else {
            assert_eq!(violated, [], "{standings:?}");
            assert!(matches!(ready, Answer::Done(_)));
            sound += 1;
        }
    }
    // 2 ways to have ended and 1 to be spent, without the one of no root ended.
    assert_eq!((left, sound), (3 * 3 * 3 - 1, 216 - 26));
}

#[test]
fn a_ledger_with_the_finish_left_to_do_is_18_and_begun_anew() {
    let mut desk = deviated();
    desk.event(3, 1, 0);
    // Root 1 gives up its entry without a firing.
    track_words_mut(MAIN, &mut desk.words, 1)[2..5].fill(0);
    desk.refused(Refusal::Unsound);
    let ready = manager::ready(MAIN, &desk.plan, &desk.words);
    assert_eq!(ready, Answer::Refused(Refusal::Unsound));
    assert!(manager::entries(MAIN, &desk.plan, &desk.words, 0).is_empty());
    assert_eq!(
        manager::begin(MAIN, &desk.plan, &mut desk.words),
        Answer::Done(())
    );
    assert_eq!([desk.track(0), desk.track(1)], [[1, 0, 0], [1, 3, 0]]);
}

#[test]
fn a_firing_of_the_last_entry_ends_it_whichever_root_it_is() {
    for root in 0..3u16 {
        let mut desk = Desk::begun(&three_roots());
        let needed = desk.words.len() - 3;
        desk.words[4..needed].fill(0);
        for other in 0..3 {
            stand(&mut desk.words, other, Standing::EndedHolding);
        }
        let own = [2, 2 * root, 1, 9, NONE];
        track_words_mut(MAIN, &mut desk.words, usize::from(root))[..5].copy_from_slice(&own);
        desk.fire(root, 9, NONE);
        desk.over();
    }
}

#[test]
fn the_journal_goes_on_with_20_after_a_firing_that_ends_it() {
    let records = [
        event(1),
        signal(),
        fire(0),
        event(1),
        event(2),
        lowest(),
        lowest(),
        signal(),
        event(1),
        fire(0),
    ];
    let lines = run(&two_links().encode(), &records);
    assert_eq!(
        lines,
        [
            "PLAN 2 6 5",
            "E 1 2 0",
            "S 2",
            "F 0 50 0",
            "E 1 1 0",
            "E 2 1 0",
            "F 1 60 -",
            "R 20",
            "R 20",
            "R 20",
            "R 20",
            "H 0 2"
        ]
    );
}

#[test]
fn a_journal_that_takes_all_back_goes_on_with_22() {
    let records = [event(1), signal(), fire(1), fire(0), signal(), lowest()];
    let lines = run(&two_links().encode(), &records);
    assert_eq!(
        lines[2..],
        ["S 2", "F 1 60 -", "F 0 50 0", "S 1", "R 22", "H 0 2"]
    );
}
