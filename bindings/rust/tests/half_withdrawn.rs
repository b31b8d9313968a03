//! Links that end half withdrawn: one root is taken back, another deviates and reaches its final state; or another society's is left at its end
//! when a signal takes the rest back.

use retraction::raw::{begin, entries, event, fire, ready, signal};
use retraction::Refusal::{EventZero, NoRight, NotReady, Over, Unsound};
use retraction::{Entry, Limit, Moved, Plan, Refusal, LEADING_WORDS, NONE};

/// The society that has every right over both roots, one that has them over root 0 alone, and one over root 1.
const SOCIETY: u16 = 1;
const OF_ROOT_0: u16 = 2;
const OF_ROOT_1: u16 = 3;

const FORWARD: u16 = 1;
const UNDOING: u16 = 2;

/// The options of a call at the main program's limit.
const MAIN: u32 = Limit::Main.options();

/// The words that a ledger of the plan has.
const WORDS: usize = Limit::Main.ledger_words(3);

/// Two roots. Root 0 goes through state 1, which hosts track 2, to its end in state 2. Root 1 stays in state 3 on event 10, and code 60, when
/// fired, sends it forward there again; it ends in state 4 on event 13.
const RECORDS: &[&[u16]] = &[
    &[6, 1, NONE],
    &[6, 1, NONE],
    &[6, 1, 1],
    &[10, 2, 0, 0, 0],
    &[10, 2, 0, 0, 90],
    &[10, 2, 0, 1, 0],
    &[10, 2, 1, 0, 0],
    &[10, 2, 1, 1, 0],
    &[10, 2, 2, 0, 0],
    &[10, 2, 2, 1, 0],
    &[14, 3, 0, 10, 50, NONE, 1],
    &[14, 3, 0, 11, 0, NONE, 1],
    &[14, 3, 1, 12, 0, NONE, 2],
    &[14, 3, 3, 10, 60, 3, 3],
    &[14, 3, 3, 13, 61, NONE, 4],
    &[14, 3, 5, 14, 51, NONE, 5],
    &[14, 3, 5, 15, 0, NONE, 6],
    &[10, 6, SOCIETY, 0, 7],
    &[10, 6, SOCIETY, 1, 7],
    &[10, 6, OF_ROOT_0, 0, 7],
    &[10, 6, OF_ROOT_1, 1, 7],
    &[4, 4],
];

fn plan() -> Vec<u8> {
    let words = RECORDS.iter().flat_map(|record| record.iter());
    words.flat_map(|word| word.to_le_bytes()).collect()
}

fn moved(moved: u16, closed: u16) -> Result<Moved, Refusal> {
    Ok(Moved { moved, closed })
}

fn fired(code: u16, deviation: Option<u16>) -> Result<Entry, Refusal> {
    Ok(Entry { code, deviation })
}

/// The plan begun, then the events given, each with the tracks that it moves, and a signal that turns so many. A word beyond is 7.
fn withdrawn(events: &[(u16, u16)], turned: u16) -> (Vec<u8>, Vec<u16>) {
    let (plan, mut ledger) = (plan(), vec![7; WORDS + 1]);
    assert_eq!(begin(&plan, &mut ledger, MAIN), Ok(()));
    for &(number, tracks) in events {
        assert_eq!(
            event(&plan, &mut ledger, number, 0, SOCIETY, MAIN),
            moved(tracks, 0)
        );
    }
    assert_eq!(signal(&plan, &mut ledger, SOCIETY, MAIN), Ok(turned));
    (plan, ledger)
}

/// Root 1, whose code 60 is its newest, deviates and ends: it then holds code 61.
fn root_1_ends(plan: &[u8], ledger: &mut [u16]) {
    assert_eq!(fire(plan, ledger, 1, SOCIETY, MAIN), fired(60, Some(3)));
    assert_eq!(event(plan, ledger, 13, 0, SOCIETY, MAIN), moved(1, 0));
}

/// The tracks are all asleep, the leading words are the plan's and the last event's day, 0, the word beyond is as it was, and every call that
/// needs a ledger not over is 20.
fn is_over(plan: &[u8], ledger: &[u16]) {
    let mut begun = vec![7; WORDS + 1];
    assert_eq!(begin(plan, &mut begun, MAIN), Ok(()));
    assert_eq!(ledger[..2], begun[..2]);
    assert_eq!(ledger[2..LEADING_WORDS], [0, 0]);
    assert_eq!(ledger[LEADING_WORDS..WORDS], [0; WORDS - LEADING_WORDS]);
    assert_eq!(ledger[WORDS..], [7]);
    let mut lent = ledger.to_vec();
    assert_eq!(event(plan, &mut lent, 0, 0, SOCIETY, MAIN), Err(EventZero));
    for number in [10, 13] {
        assert_eq!(event(plan, &mut lent, number, 0, SOCIETY, MAIN), Err(Over));
    }
    assert_eq!(signal(plan, &mut lent, SOCIETY, MAIN), Err(Over));
    for track in [0, 1, 2, 99] {
        assert_eq!(fire(plan, &mut lent, track, SOCIETY, MAIN), Err(Over));
        assert_eq!(entries(plan, &lent, track, MAIN), []);
    }
    assert_eq!(ready(plan, &mut lent, MAIN), Ok(0));
    assert_eq!(lent, ledger);
}

/// The firing gives its code; code 61, which root 1 holds, is dropped unfired.
#[test]
fn the_last_firing_of_a_root_ends_it() {
    let (plan, mut ledger) = withdrawn(&[(10, 2)], 3);
    assert_eq!(ready(&plan, &mut ledger, MAIN), Ok(0b011));
    root_1_ends(&plan, &mut ledger);
    assert_eq!(entries(&plan, &ledger, 1, MAIN), [61, NONE]);
    assert_eq!(ready(&plan, &mut ledger, MAIN), Ok(0b001));
    assert_eq!(fire(&plan, &mut ledger, 0, SOCIETY, MAIN), fired(50, None));
    is_over(&plan, &ledger);
}

#[test]
fn the_last_event_of_a_root_ends_it() {
    let (plan, mut ledger) = withdrawn(&[(10, 2)], 3);
    assert_eq!(fire(&plan, &mut ledger, 0, SOCIETY, MAIN), fired(50, None));
    assert_eq!(ready(&plan, &mut ledger, MAIN), Ok(0b010));
    root_1_ends(&plan, &mut ledger);
    is_over(&plan, &ledger);
}

/// Root 0 holds nothing, but its scope is open until track 2 is taken back.
#[test]
fn the_last_firing_of_a_branch_ends_it() {
    let (plan, mut ledger) = withdrawn(&[(11, 1), (10, 1), (14, 1)], 3);
    root_1_ends(&plan, &mut ledger);
    assert_eq!(ready(&plan, &mut ledger, MAIN), Ok(0b100));
    assert_eq!(fire(&plan, &mut ledger, 2, SOCIETY, MAIN), fired(51, None));
    is_over(&plan, &ledger);
}

#[test]
fn a_firing_that_leaves_an_entry_does_not_end_it() {
    let (plan, mut ledger) = (plan(), vec![7; WORDS + 1]);
    assert_eq!(begin(&plan, &mut ledger, MAIN), Ok(()));
    assert_eq!(event(&plan, &mut ledger, 10, 0, SOCIETY, MAIN), moved(2, 0));
    assert_eq!(event(&plan, &mut ledger, 15, 0, SOCIETY, MAIN), moved(1, 1));
    assert_eq!(signal(&plan, &mut ledger, SOCIETY, MAIN), Ok(2));
    root_1_ends(&plan, &mut ledger);
    assert_eq!(fire(&plan, &mut ledger, 0, SOCIETY, MAIN), fired(90, None));
    assert_eq!(ready(&plan, &mut ledger, MAIN), Ok(0b001));
    assert_eq!(fire(&plan, &mut ledger, 0, SOCIETY, MAIN), fired(50, None));
    is_over(&plan, &ledger);
}

/// A second signal turns root 1 once more, before it ends: both roots are taken back, and the calls go on.
#[test]
fn a_link_withdrawn_as_a_whole_is_not_over() {
    let (plan, mut ledger) = withdrawn(&[(10, 2)], 3);
    assert_eq!(fire(&plan, &mut ledger, 0, SOCIETY, MAIN), fired(50, None));
    assert_eq!(
        fire(&plan, &mut ledger, 1, SOCIETY, MAIN),
        fired(60, Some(3))
    );
    assert_eq!(signal(&plan, &mut ledger, SOCIETY, MAIN), Ok(1));
    assert_eq!(ready(&plan, &mut ledger, MAIN), Ok(0));
    assert_eq!(ledger[LEADING_WORDS..][..3], [UNDOING, 1, 0]);
    assert_eq!(ledger[Limit::Main.ledger_words(1)..][..3], [UNDOING, 3, 0]);
    assert_eq!(event(&plan, &mut ledger, 13, 0, SOCIETY, MAIN), moved(0, 0));
    assert_eq!(signal(&plan, &mut ledger, SOCIETY, MAIN), Ok(0));
    assert_eq!(fire(&plan, &mut ledger, 1, SOCIETY, MAIN), Err(NotReady));
}

/// Root 1 has ended when the signal turns it back: code 61 is due again, and nothing is over.
#[test]
fn a_signal_turns_back_a_root_that_has_ended() {
    let (plan, mut ledger) = withdrawn(&[(10, 2)], 3);
    root_1_ends(&plan, &mut ledger);
    assert_eq!(signal(&plan, &mut ledger, SOCIETY, MAIN), Ok(1));
    assert_eq!(ready(&plan, &mut ledger, MAIN), Ok(0b011));
    assert_eq!(fire(&plan, &mut ledger, 0, SOCIETY, MAIN), fired(50, None));
    assert_eq!(fire(&plan, &mut ledger, 1, SOCIETY, MAIN), fired(61, None));
    assert_eq!(ready(&plan, &mut ledger, MAIN), Ok(0));
    assert_eq!(signal(&plan, &mut ledger, SOCIETY, MAIN), Ok(0));
}

/// Root 1 is at its end, holding code 61, and root 0 at its begin: taken back by its own society, it leaves nothing to do, and code 61 is dropped.
#[test]
fn a_signal_over_one_root_ends_it() {
    let (plan, mut ledger) = (plan(), vec![7; WORDS + 1]);
    assert_eq!(begin(&plan, &mut ledger, MAIN), Ok(()));
    assert_eq!(
        event(&plan, &mut ledger, 13, 0, OF_ROOT_0, MAIN),
        moved(0, 0)
    );
    assert_eq!(
        event(&plan, &mut ledger, 13, 0, OF_ROOT_1, MAIN),
        moved(1, 0)
    );
    assert_eq!(entries(&plan, &ledger, 1, MAIN), [61, NONE]);
    assert_eq!(signal(&plan, &mut ledger, OF_ROOT_0, MAIN), Ok(1));
    is_over(&plan, &ledger);
}

/// The scope of root 0 is open and holds nothing: it is abandoned by the signal that ends the link.
#[test]
fn a_signal_that_abandons_a_scope_ends_it() {
    let (plan, mut ledger) = (plan(), vec![7; WORDS + 1]);
    assert_eq!(begin(&plan, &mut ledger, MAIN), Ok(()));
    assert_eq!(
        event(&plan, &mut ledger, 11, 0, OF_ROOT_0, MAIN),
        moved(1, 0)
    );
    assert_eq!(
        event(&plan, &mut ledger, 13, 0, OF_ROOT_1, MAIN),
        moved(1, 0)
    );
    assert_eq!(signal(&plan, &mut ledger, OF_ROOT_0, MAIN), Ok(2));
    is_over(&plan, &ledger);
}

/// Root 0 holds code 50 after the signal, so that its firing ends the link; over both roots a signal ends none.
#[test]
fn a_signal_that_leaves_something_held_does_not_end_it() {
    let (plan, mut ledger) = (plan(), vec![7; WORDS + 1]);
    assert_eq!(begin(&plan, &mut ledger, MAIN), Ok(()));
    assert_eq!(
        event(&plan, &mut ledger, 10, 0, OF_ROOT_0, MAIN),
        moved(1, 0)
    );
    assert_eq!(
        event(&plan, &mut ledger, 13, 0, OF_ROOT_1, MAIN),
        moved(1, 0)
    );
    let mut other = ledger.clone();
    assert_eq!(signal(&plan, &mut ledger, OF_ROOT_0, MAIN), Ok(2));
    assert_eq!(ready(&plan, &mut ledger, MAIN), Ok(0b001));
    assert_eq!(fire(&plan, &mut ledger, 0, OF_ROOT_1, MAIN), Err(NoRight));
    assert_eq!(
        fire(&plan, &mut ledger, 0, OF_ROOT_0, MAIN),
        fired(50, None)
    );
    is_over(&plan, &ledger);
    assert_eq!(signal(&plan, &mut other, SOCIETY, MAIN), Ok(3));
    assert_eq!(ready(&plan, &mut other, MAIN), Ok(0b011));
}

/// Mode and state of both roots, which hold nothing, and track 2 asleep.
fn standing(roots: [(u16, u16); 2]) -> Vec<u16> {
    let mut ledger = vec![0; WORDS];
    assert_eq!(begin(&plan(), &mut ledger, MAIN), Ok(()));
    for (track, (mode, state)) in roots.into_iter().enumerate() {
        ledger[Limit::Main.ledger_words(track)..][..2].copy_from_slice(&[mode, state]);
    }
    ledger
}

#[test]
fn finish_left_to_do_is_18() {
    for roots in [
        [(UNDOING, 0), (FORWARD, 4)],
        [(UNDOING, 1), (FORWARD, 4)],
        [(UNDOING, 2), (FORWARD, 4)],
        [(FORWARD, 2), (UNDOING, 3)],
        [(FORWARD, 2), (UNDOING, 4)],
        [(FORWARD, 2), (FORWARD, 4)],
    ] {
        let before = standing(roots);
        let (plan, mut ledger) = (plan(), before.clone());
        assert_eq!(
            event(&plan, &mut ledger, 10, 0, SOCIETY, MAIN),
            Err(Unsound),
            "{roots:?}"
        );
        assert_eq!(
            signal(&plan, &mut ledger, SOCIETY, MAIN),
            Err(Unsound),
            "{roots:?}"
        );
        assert_eq!(
            fire(&plan, &mut ledger, 0, SOCIETY, MAIN),
            Err(Unsound),
            "{roots:?}"
        );
        assert_eq!(ready(&plan, &mut ledger, MAIN), Err(Unsound), "{roots:?}");
        assert_eq!(ledger, before);
    }
}

#[test]
fn no_finish_left_to_do_is_sound() {
    for roots in [
        [(UNDOING, 0), (UNDOING, 3)],
        [(UNDOING, 2), (UNDOING, 4)],
        [(UNDOING, 1), (FORWARD, 3)],
        [(FORWARD, 1), (FORWARD, 4)],
    ] {
        assert_eq!(
            ready(&plan(), &mut standing(roots), MAIN),
            Ok(0),
            "{roots:?}"
        );
    }
}

#[test]
fn a_ledger_tells_that_it_is_over() -> Result<(), Refusal> {
    let plan = Plan::read(plan())?;
    let mut ledger = plan.begin(Limit::Main);
    assert_eq!(ledger.event(10, 0, SOCIETY), moved(2, 0));
    assert_eq!(ledger.signal(SOCIETY), Ok(3));
    assert_eq!(ledger.fire(1, SOCIETY), fired(60, Some(3)));
    assert_eq!(ledger.event(13, 0, SOCIETY), moved(1, 0));
    assert!(!ledger.is_over());
    assert_eq!(ledger.fire(0, SOCIETY), fired(50, None));
    assert!(ledger.is_over());
    assert_eq!(ledger.ready().count(), 0);
    assert_eq!(ledger.fire(1, SOCIETY), Err(Over));
    assert!(plan.ledger(ledger.words(), Limit::Main)?.is_over());
    assert_eq!(
        plan.ledger(standing([(UNDOING, 1), (FORWARD, 4)]), Limit::Main),
        Err(Unsound)
    );
    Ok(())
}
