//! The leading words: the length and the sum that begin writes, and refusal 24. `days.rs` has the day behind them.

mod sample_plan;

use retraction::raw::{begin, entries, event, fire, read, ready, signal};
use retraction::Refusal::{FewWords, OtherPlan, Over, Unsound};
use retraction::{Limit, Moved, Plan, Refusal, LEADING_WORDS, NONE};
use sample_plan::{begun, plan, SOCIETY, TRACKS};

/// The options of a call at the main program's limit, and the words that a ledger of plan P has at it.
const MAIN: u32 = Limit::Main.options();
const WORDS: usize = Limit::Main.ledger_words(TRACKS);

/// Where plan P's transitions start, and where its rights record does.
const TRANSITIONS: usize = 3 * 6 + 8 * 10;
const RIGHTS: usize = TRANSITIONS + 5 * 14;

/// Plan P with other codes, each after the number of its transition.
fn recoded(codes: &[(usize, u16)]) -> Vec<u8> {
    let mut plan = plan();
    for &(transition, code) in codes {
        let at = TRANSITIONS + 14 * transition + 8;
        plan[at..at + 2].copy_from_slice(&code.to_le_bytes());
    }
    plan
}

/// Plan P with a transition more, whose words add up to 65,536.
fn longer() -> Vec<u8> {
    let transition = [14u16, 3, 0, 15, 65505, NONE, 0];
    let mut plan = plan();
    plan.splice(
        RIGHTS..RIGHTS,
        transition.iter().flat_map(|word| word.to_le_bytes()),
    );
    plan
}

/// Two neighbours of plan P, with as many tracks: one with another sum, one with another length.
fn neighbours() -> [Vec<u8>; 2] {
    [recoded(&[(0, 60)]), longer()]
}

/// The words that a begin and then events leave, each event moving a track.
fn worked(plan: &[u8], events: &[u16]) -> Vec<u16> {
    let mut ledger = vec![7; WORDS + 1];
    assert_eq!(begin(plan, &mut ledger, MAIN), Ok(()));
    for &number in events {
        assert!(matches!(
            event(plan, &mut ledger, number, 0, SOCIETY, MAIN),
            Ok(Moved { moved: 1, .. })
        ));
    }
    ledger
}

/// Every call but begin is refused, whatever its argument, hands back nothing, and changes no word.
fn is_refused(plan: &[u8], ledger: &[u16], refusal: Refusal) {
    let mut lent = ledger.to_vec();
    for number in [0, 10, 13] {
        assert_eq!(
            event(plan, &mut lent, number, 0, SOCIETY, MAIN),
            Err(refusal)
        );
    }
    assert_eq!(signal(plan, &mut lent, SOCIETY, MAIN), Err(refusal));
    for track in [0, 1, 99] {
        assert_eq!(fire(plan, &mut lent, track, SOCIETY, MAIN), Err(refusal));
        assert_eq!(entries(plan, &lent, track, MAIN), []);
    }
    assert_eq!(ready(plan, &mut lent, MAIN), Err(refusal));
    assert_eq!(lent, ledger);
}

#[test]
fn begin_writes_the_length_and_the_sum() {
    let (plan, ledger) = begun(Limit::Main);
    assert_eq!(ledger[..2], [182, 633]);
    assert_eq!(ledger[LEADING_WORDS..][..3], [1, 0, 0]);
    assert_eq!(plan.len(), 182);
    let [other_sum, longer] = neighbours();
    assert_eq!(worked(&other_sum, &[])[..2], [182, 643]);
    assert_eq!(worked(&longer, &[])[..2], [196, 633]);
}

#[test]
fn a_begin_takes_a_neighbours_ledger() {
    for neighbour in neighbours() {
        let mut ledger = worked(&neighbour, &[10, 11]);
        assert_eq!(begin(&plan(), &mut ledger, MAIN), Ok(()));
        assert_eq!(ledger, worked(&plan(), &[]));
    }
}

#[test]
fn a_neighbours_ledger_is_24() {
    for neighbour in neighbours() {
        assert_eq!(read(&neighbour).map(|counts| counts.tracks), Ok(3));
        for events in [&[][..], &[10], &[10, 11, 12], &[10, 11, 12, 14]] {
            is_refused(&plan(), &worked(&neighbour, events), OtherPlan);
            is_refused(&neighbour, &worked(&plan(), events), OtherPlan);
        }
    }
}

#[test]
fn an_over_ledger_of_a_neighbour_is_24() {
    let mut over = worked(&plan(), &[10, 11, 12, 14, 13]);
    assert_eq!(signal(&plan(), &mut over, SOCIETY, MAIN), Err(Over));
    for neighbour in neighbours() {
        is_refused(&neighbour, &over, OtherPlan);
    }
}

#[test]
fn zeros_are_24() {
    is_refused(&plan(), &[0; WORDS], OtherPlan);
}

#[test]
fn after_17_and_before_18() {
    let [neighbour, _] = neighbours();
    let mut ledger = worked(&neighbour, &[10]);
    is_refused(&plan(), &ledger[..WORDS - 1], FewWords);
    is_refused(&plan(), &ledger[..1], FewWords);
    ledger[LEADING_WORDS] = 3;
    is_refused(&plan(), &ledger, OtherPlan);
    is_refused(&neighbour, &ledger, Unsound);
}

/// Two codes exchanged: keeping these two plans' ledgers apart is the caller's part.
#[test]
fn plans_alike_in_both_words_are_not_told_apart() {
    let alike = recoded(&[(2, 52), (3, 51)]);
    let mut ledger = worked(&plan(), &[10]);
    assert_eq!(worked(&alike, &[10]), ledger);
    assert!(event(&alike, &mut ledger, 11, 0, SOCIETY, MAIN).is_ok());
    assert_eq!(entries(&plan(), &ledger, 1, MAIN), [52, NONE]);
}

#[test]
fn a_stored_ledger_is_read_under_its_own_plan() -> Result<(), Refusal> {
    let own = Plan::read(plan())?;
    let stored = own.begin(Limit::Main).words().to_vec();
    assert_eq!(stored[..2], [182, 633]);
    assert_eq!(
        own.ledger(stored.clone(), Limit::Main)?,
        own.begin(Limit::Main)
    );
    assert_eq!(
        own.ledger(&stored[LEADING_WORDS..], Limit::Main),
        Err(FewWords)
    );
    for neighbour in neighbours() {
        assert_eq!(
            Plan::read(neighbour)?.ledger(stored.clone(), Limit::Main),
            Err(OtherPlan)
        );
    }
    Ok(())
}
