//! Sound and damaged ledgers under the sample plan and a deeper one.

mod common;

use common::*;
use second::ledger::{self, track_words_mut, Clause, LEADING_WORDS};
use second::manager::{self, Answer};
use second::plan::{self, NONE};
use second::refusal::Refusal;
use testing::generate::plans;

/// The sample plan's ledger after events 10, 11 and 12.
fn working() -> Vec<u16> {
    let plan = sample();
    let mut words = vec![0; 205];
    manager::begin(MAIN, &plan, &mut words);
    for event in [10, 11, 12] {
        manager::event(MAIN, &plan, &mut words, event, 0, 1);
    }
    words
}

/// The clauses violated once words are changed, each given as its place among
/// the tracks' words, and the word.
fn violated(changes: &[(usize, u16)]) -> Vec<Clause> {
    let mut words = working();
    for &(at, word) in changes {
        words[LEADING_WORDS + at] = word;
    }
    let plan = plan::read(&sample()).expect("accepted");
    let clauses = ledger::violated(MAIN, &plan, &words);
    assert_eq!(ledger::is_sound(MAIN, &plan, &words), clauses.is_empty());
    clauses
}

#[test]
fn the_working_ledger_is_laid_out_as_described() {
    let words = working();
    assert_eq!(words[..4], [182, 633, 0, 0]);
    assert_eq!(words[4..9], [1, 1, 1, 50, NONE]);
    assert_eq!(words[71..76], [1, 4, 1, 51, NONE]);
    assert_eq!(words[138..143], [1, 6, 1, 52, NONE]);
    assert_eq!(violated(&[]), []);
}

#[test]
fn words_not_as_described() {
    assert_eq!(violated(&[(134, 3), (0, 3), (67, 3)]), [Clause::ModesKnown]);
    assert_eq!(violated(&[(5, 1)]), [Clause::UnusedPairsZero]);
    assert_eq!(violated(&[(66, 1)]), [Clause::UnusedPairsZero]);
    assert_eq!(violated(&[(2, 0)]), [Clause::UnusedPairsZero]);
}

#[test]
fn a_count_above_32_is_unsound_though_all_pairs_are_good() {
    let mut words = working();
    for pair in words[7..71].chunks_exact_mut(2) {
        pair.copy_from_slice(&[7, NONE]);
    }
    let plan = plan::read(&sample()).expect("accepted");
    words[6] = 32;
    assert!(ledger::is_sound(MAIN, &plan, &words));
    words[6] = 33;
    assert_eq!(
        ledger::violated(MAIN, &plan, &words),
        [Clause::CountsInRange]
    );
}

#[test]
fn an_asleep_track_is_all_zeros() {
    let plan = plan::read(&sample()).expect("accepted");
    let mut words = vec![0; 205];
    assert!(ledger::is_sound(MAIN, &plan, &words));
    words[204] = 1;
    assert_eq!(
        ledger::violated(MAIN, &plan, &words),
        [Clause::AsleepTracksZero]
    );
    words[204] = 0;
    words[5] = 1;
    assert_eq!(
        ledger::violated(MAIN, &plan, &words),
        [Clause::AsleepTracksZero]
    );
}

#[test]
fn states_codes_and_deviations() {
    assert_eq!(violated(&[(135, 3)]), [Clause::StatesOwn]);
    assert_eq!(violated(&[(135, 8)]), [Clause::StatesOwn]);
    assert_eq!(violated(&[(3, 0)]), [Clause::CodesNotZero]);
    assert_eq!(violated(&[(71, 3)]), [Clause::HostedHoldNoDeviation]);
    assert_eq!(violated(&[(4, 0)]), []);
    assert_eq!(violated(&[(4, 1)]), []);
    assert_eq!(violated(&[(4, 2)]), [Clause::DeviationsNotFinal]);
    assert_eq!(violated(&[(4, 3)]), [Clause::DeviationsOwn]);
    assert_eq!(violated(&[(4, 8)]), [Clause::DeviationsOwn]);
}

#[test]
fn scopes_and_hosts() {
    let asleep: Vec<(usize, u16)> = (67..134).map(|at| (at, 0)).collect();
    assert_eq!(violated(&asleep), [Clause::ScopesWhole]);
    assert_eq!(violated(&[(1, 0)]), [Clause::HostsInHostingState]);
    assert_eq!(violated(&[(0, 2)]), [Clause::ScopesInHostMode]);
    assert_eq!(violated(&[(67, 2)]), [Clause::ScopesInHostMode]);
    assert_eq!(violated(&[(0, 2), (67, 2), (134, 2)]), []);
}

#[test]
fn a_host_in_the_middle_must_be_awake() {
    let plan = plan::read(&plans::chain(3).encode()).expect("accepted");
    let mut words = vec![0; 205];
    manager::begin(MAIN, &plans::chain(3).encode(), &mut words);
    assert!(ledger::is_sound(MAIN, &plan, &words));
    words[71..138].fill(0);
    assert_eq!(ledger::violated(MAIN, &plan, &words), [Clause::HostsAwake]);
}

#[test]
fn every_root_is_awake() {
    let mut records = looping();
    records.tracks.push(track(NONE));
    records.states.push(state(1, 0, 0));
    let plan = plan::read(&records.encode()).expect("accepted");
    let mut words = vec![0; 138];
    words[4..6].copy_from_slice(&[1, 0]);
    assert_eq!(ledger::violated(MAIN, &plan, &words), [Clause::RootsAwake]);
    words[71..73].copy_from_slice(&[2, 2]);
    assert_eq!(ledger::violated(MAIN, &plan, &words), []);
}

#[test]
fn no_settling_is_left() {
    assert_eq!(violated(&[(135, 7)]), [Clause::NoClosingLeft]);
    let mut finished = vec![0; 205];
    finished[4..6].copy_from_slice(&[1, 2]);
    let plan = plan::read(&sample()).expect("accepted");
    assert_eq!(
        ledger::violated(MAIN, &plan, &finished),
        [Clause::NoFinishLeft]
    );
    let mut spent = vec![0; 205];
    for (track, state) in [(0, 1), (1, 4), (2, 6)] {
        track_words_mut(MAIN, &mut spent, track)[..2].copy_from_slice(&[2, state]);
    }
    assert_eq!(
        ledger::violated(MAIN, &plan, &spent),
        [Clause::NoAbandoningLeft]
    );
    // One root undoing in its final state is no settling left.
    finished[4] = 2;
    assert_eq!(ledger::violated(MAIN, &plan, &finished), []);
}

#[test]
fn a_damaged_ledger_is_refused_and_not_touched() {
    let plan = sample();
    let mut words = working();
    words[139] = 7;
    let before = words.clone();
    let unsound = Refusal::Unsound;
    assert_eq!(
        manager::event(MAIN, &plan, &mut words, 11, 0, 1),
        Answer::Refused(unsound)
    );
    assert_eq!(
        manager::signal(MAIN, &plan, &mut words, 1),
        Answer::Refused(unsound)
    );
    assert_eq!(
        manager::fire(MAIN, &plan, &mut words, 1, 1),
        Answer::Refused(unsound)
    );
    assert_eq!(
        manager::ready(MAIN, &plan, &words),
        Answer::Refused(unsound)
    );
    assert!(manager::entries(MAIN, &plan, &words, 1).is_empty());
    assert_eq!(words, before);
}

#[test]
fn entries_are_the_callers_own_words() {
    let plan = sample();
    let words = working();
    let part = manager::entries(MAIN, &plan, &words, 1);
    assert_eq!(part, [51, NONE]);
    assert_eq!(part.as_ptr(), words[74..].as_ptr());
    assert!(manager::entries(MAIN, &plan, &words, 3).is_empty());
}
