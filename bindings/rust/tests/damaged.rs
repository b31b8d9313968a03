//! Ledgers that no call may take, at either limit: one clause of soundness broken at a time, refused by every call with 18 and left as they were;
//! and the ledgers at the edge that are sound, or too short.

mod sample_plan;

use retraction::raw::{begin, entries, event, fire, ready, signal};
use retraction::Refusal::{EventZero, FewWords, Over, Unsound};
use retraction::{Limit, Moved, LEADING_WORDS, NONE};
use sample_plan::{begun, plan, SOCIETY, TRACKS};

const ASLEEP: u16 = 0;
const FORWARD: u16 = 1;
const UNDOING: u16 = 2;

/// Plan P's ledger, and the limit that it is kept at.
struct Kept {
    plan: Vec<u8>,
    words: Vec<u16>,
    limit: Limit,
}

impl Kept {
    fn begun(limit: Limit) -> Kept {
        let (plan, words) = begun(limit);
        Kept { plan, words, limit }
    }

    /// After event 10: the root in state 1 holds code 50, its scope is open.
    fn opened(limit: Limit) -> Kept {
        let mut kept = Kept::begun(limit);
        let moved = Moved {
            moved: 1,
            closed: 0,
        };
        let done = event(&kept.plan, &mut kept.words, 10, 0, SOCIETY, limit.options());
        assert_eq!(done, Ok(moved));
        kept
    }

    /// The words of a track.
    fn track(&mut self, track: usize) -> &mut [u16] {
        let limit = self.limit;
        &mut self.words[limit.ledger_words(track)..][..limit.track_words()]
    }

    /// A track's words: mode, state, and the entries held, oldest first.
    fn put(&mut self, track: usize, mode: u16, state: u16, held: &[(u16, u16)]) {
        let words = self.track(track);
        words.fill(0);
        words[..3].copy_from_slice(&[mode, state, held.len() as u16]);
        for (pair, entry) in words[3..].chunks_exact_mut(2).zip(held) {
            pair.copy_from_slice(&[entry.0, entry.1]);
        }
    }

    /// Every call refuses the ledger with 18, hands back nothing, and changes no word.
    fn is_unsound(&self) {
        let (plan, options) = (&self.plan, self.limit.options());
        let mut words = self.words.clone();
        for number in [11, 0] {
            let done = event(plan, &mut words, number, 0, SOCIETY, options);
            assert_eq!(done, Err(Unsound), "{:?}", self.limit);
        }
        assert_eq!(signal(plan, &mut words, SOCIETY, options), Err(Unsound));
        assert_eq!(fire(plan, &mut words, 0, SOCIETY, options), Err(Unsound));
        assert_eq!(ready(plan, &mut words, options), Err(Unsound));
        assert_eq!(entries(plan, &words, 0, options), []);
        assert_eq!(words, self.words);
    }
}

/// At either limit the ledger so damaged is refused.
fn is_refused(damage: impl Fn(&mut Kept)) {
    for limit in [Limit::Main, Limit::ReadingRoom] {
        let mut kept = Kept::opened(limit);
        damage(&mut kept);
        kept.is_unsound();
    }
}

#[test]
fn the_ledger_before_the_damage_is_sound() {
    for limit in [Limit::Main, Limit::ReadingRoom] {
        let mut kept = Kept::opened(limit);
        let options = limit.options();
        assert_eq!(ready(&kept.plan, &mut kept.words, options), Ok(0));
        assert_eq!(entries(&kept.plan, &kept.words, 0, options), [50, NONE]);
    }
}

#[test]
fn day_out_of_range() {
    is_refused(|kept| kept.words[3] = 3);
}

#[test]
fn mode_3() {
    is_refused(|kept| kept.track(0)[0] = 3);
}

#[test]
fn count_above_the_limit() {
    is_refused(|kept| kept.track(0)[2] = kept.limit.entries() + 1);
    is_refused(|kept| kept.track(0)[2] = NONE);
}

#[test]
fn unused_pair_not_zero() {
    is_refused(|kept| kept.track(0)[3 + 2] = 1);
    is_refused(|kept| *kept.track(0).last_mut().expect("words") = 1);
}

#[test]
fn asleep_track_not_zero() {
    is_refused(|kept| kept.put(1, ASLEEP, 3, &[]));
}

#[test]
fn root_asleep() {
    is_refused(|kept| kept.put(0, ASLEEP, 0, &[]));
}

#[test]
fn state_of_another_track() {
    is_refused(|kept| kept.put(1, FORWARD, 5, &[]));
}

#[test]
fn code_0_held() {
    is_refused(|kept| kept.put(0, FORWARD, 1, &[(0, NONE)]));
}

#[test]
fn hosted_track_with_a_deviation() {
    is_refused(|kept| kept.put(1, FORWARD, 4, &[(51, 2)]));
}

#[test]
fn root_with_a_final_deviation() {
    is_refused(|kept| kept.put(0, FORWARD, 1, &[(50, 2)]));
}

#[test]
fn scope_awake_in_part() {
    is_refused(|kept| kept.put(2, ASLEEP, 0, &[]));
}

#[test]
fn host_in_another_state() {
    is_refused(|kept| kept.put(0, FORWARD, 0, &[(50, NONE)]));
}

#[test]
fn forward_host_with_an_undoing_scope() {
    is_refused(|kept| {
        kept.put(1, UNDOING, 4, &[(51, NONE)]);
        kept.put(2, UNDOING, 6, &[(52, NONE)]);
    });
}

#[test]
fn closing_left_to_do() {
    is_refused(|kept| {
        kept.put(1, FORWARD, 4, &[(51, NONE)]);
        kept.put(2, FORWARD, 7, &[(52, NONE), (54, NONE)]);
    });
}

#[test]
fn finish_left_to_do() {
    is_refused(|kept| {
        kept.put(0, FORWARD, 2, &[(50, NONE)]);
        kept.put(1, ASLEEP, 0, &[]);
        kept.put(2, ASLEEP, 0, &[]);
    });
}

#[test]
fn abandoning_left_to_do() {
    is_refused(|kept| {
        kept.put(0, UNDOING, 1, &[(50, NONE)]);
        kept.put(1, UNDOING, 3, &[]);
        kept.put(2, UNDOING, 5, &[]);
    });
}

/// As many entries as the limit, and their last word not zero: sound, and full.
#[test]
fn a_full_track_is_sound() {
    for limit in [Limit::Main, Limit::ReadingRoom] {
        let mut kept = Kept::opened(limit);
        let held = vec![(50, NONE); usize::from(limit.entries())];
        kept.put(0, FORWARD, 1, &held);
        let words = entries(&kept.plan, &kept.words, 0, limit.options());
        assert_eq!(words, [50, NONE].repeat(held.len()));
    }
}

#[test]
fn all_asleep_is_over() {
    for limit in [Limit::Main, Limit::ReadingRoom] {
        let (options, mut kept) = (limit.options(), Kept::begun(limit));
        kept.words[LEADING_WORDS..].fill(0);
        let (plan, mut words) = (&kept.plan, kept.words.clone());
        let mut event = |number| event(plan, &mut words, number, 0, SOCIETY, options);
        assert_eq!(event(0), Err(EventZero));
        assert_eq!(event(5), Err(Over));
        assert_eq!(signal(plan, &mut words, SOCIETY, options), Err(Over));
        assert_eq!(fire(plan, &mut words, 99, SOCIETY, options), Err(Over));
        assert_eq!(ready(plan, &mut words, options), Ok(0));
        assert_eq!(entries(plan, &words, 0, options), []);
        assert_eq!(words, kept.words);
    }
}

#[test]
fn one_word_too_few() {
    for limit in [Limit::Main, Limit::ReadingRoom] {
        let (plan, options) = (plan(), limit.options());
        let mut ledger = vec![9; limit.ledger_words(TRACKS) - 1];
        let before = ledger.clone();
        assert_eq!(begin(&plan, &mut ledger, options), Err(FewWords));
        let done = event(&plan, &mut ledger, 0, 0, SOCIETY, options);
        assert_eq!(done, Err(FewWords));
        assert_eq!(ready(&plan, &mut ledger, options), Err(FewWords));
        assert_eq!(entries(&plan, &ledger, 0, options), []);
        assert_eq!(ledger, before);
    }
}
