//! Generated plans and the largest number of entries: against every path, and
//! against what histories make tracks hold.

use second::journal::{self, Record};
use second::ledger::{self, Ledger};
use second::limit::Limit;
use second::manager::{self, Answer};
use second::paths::{self, Largest};
use second::plan::{self, Plan};
use second::refusal::Refusal;
use second::rules;
use testing::coverage::most_entries;
use testing::faults;
use testing::generate::rng::Rng;
use testing::generate::singles::Call;
use testing::generate::{journals, paths as bounds};
use testing::vectors;

/// The main program's limit.
const MAIN: Limit = Limit::MAIN;

fn bounded(rng: &mut Rng) -> Plan {
    let bytes = bounds::bounded(rng).encode();
    plan::read(&bytes).expect("accepted")
}

/// The figure of a track, which the path shown with it has.
fn figure(plan: &Plan, track: usize) -> u16 {
    let Largest { figure, path } = paths::largest(plan, track).expect("bounded");
    assert_eq!(paths::entries_along(plan, track, &path), Some(figure));
    figure
}

#[test]
fn bounded_plans_are_taken_and_unbounded_ones_are_29() {
    for index in 0..3_000 {
        let mut rng = Rng::for_case(8, 1, index);
        let plan = bounded(&mut rng);
        assert!(faults::unbound(&plan).is_empty());
        assert!(paths::largest(&plan, 0).is_ok());
        let bytes = bounds::unbounded(&mut rng).encode();
        let plan = plan::read(&bytes).expect("accepted");
        assert!(!faults::unbound(&plan).is_empty());
        let answer = manager::largest(&bytes, 0);
        assert_eq!(answer, Answer::Refused(Refusal::Unbounded));
    }
}

#[test]
fn any_plan_is_29_just_where_it_has_a_deviation_or_a_cycle() {
    let (mut taken, mut unbound, mut refused) = (0, 0, 0);
    for index in 0..6_000 {
        let bytes = bounds::any_plan(&mut Rng::for_case(8, 2, index));
        match (plan::read(&bytes), manager::largest(&bytes, 0)) {
            (Ok(plan), Answer::Done(_)) => {
                assert!(faults::unbound(&plan).is_empty());
                taken += 1;
            }
            (Ok(plan), Answer::Refused(refusal)) => {
                assert_eq!(refusal, Refusal::Unbounded);
                assert!(!faults::unbound(&plan).is_empty());
                unbound += 1;
            }
            (Err(first), answer) => {
                assert_eq!(answer, Answer::Refused(first));
                refused += 1;
            }
        }
    }
    let least = taken.min(unbound).min(refused);
    assert!(least > 400, "{taken} {unbound} {refused}");
}

/// The most entries along the paths that go on from a state, each gone to its
/// end; `None` where they are more than the steps left.
fn by_every_path(plan: &Plan, state: u16, steps: &mut usize) -> Option<u16> {
    *steps = steps.checked_sub(1)?;
    let mut best = 0;
    for (x, _) in plan.transitions_from(state) {
        let onwards = by_every_path(plan, x.destination, steps)?;
        best = best.max(onwards + u16::from(x.code != 0));
    }
    let replaced = plan.scope(state) != 0 && plan.replacement(state) != 0;
    Some(best + u16::from(replaced))
}

#[test]
fn no_path_has_more_entries() {
    let mut gone_through = 0;
    for index in 0..3_000 {
        let plan = bounded(&mut Rng::for_case(8, 3, index));
        for track in 0..plan.track_count() {
            let first = plan.first_state(track);
            if let Some(best) = by_every_path(&plan, first, &mut 20_000) {
                assert_eq!(figure(&plan, track), best);
                gone_through += 1;
            }
        }
    }
    assert!(gone_through > 8_000, "{gone_through}");
}

#[test]
fn figures_are_those_of_a_walk_that_remembers() {
    for index in 0..6_000 {
        let plan = bounded(&mut Rng::for_case(8, 4, index));
        let mut known = vec![None; plan.state_count()];
        for track in 0..plan.track_count() {
            let (entries, _) = most_entries(&plan, plan.first_state(track), &mut known);
            assert_eq!(figure(&plan, track), entries);
        }
    }
}

#[test]
fn numbers_of_states_and_transitions_have_no_say() {
    for index in 0..1_000 {
        let mut rng = Rng::for_case(8, 5, index);
        let plan = bounded(&mut rng);
        let mut records = plan.records().clone();
        records.windows.clear();
        rng.shuffle(&mut records.transitions);
        let other = plan::read(&records.encode()).expect("accepted");
        for track in 0..plan.track_count() {
            assert_eq!(figure(&plan, track), figure(&other, track));
        }
    }
}

/// Makes a record's call by the manager; its answer as text.
fn perform(bytes: &[u8], plan: &Plan, words: &mut [u16], record: Record) -> String {
    let call = match record {
        Record::FireLowest(society) => {
            let ledger = Ledger::decode(MAIN, plan, words);
            Call::Fire(journal::lowest_ready(plan, &ledger, society), society)
        }
        _ => Call::of(record).expect("a call"),
    };
    vectors::answer(MAIN, bytes, words, call)
}

/// A long history of events that move tracks, as long as there is one.
fn onwards(rng: &mut Rng, plan: &Plan) -> Vec<Record> {
    let mut ledger = rules::begin(MAIN, plan);
    let mut records = Vec::new();
    for _ in 0..200 {
        let events = journals::moving_events(plan, &ledger, |_| true);
        let record = match rng.pick(&events) {
            Some(event) => journals::event_of(rng, plan, &ledger, event),
            None => break,
        };
        journal::perform(plan, &mut ledger, record);
        records.push(record);
    }
    records
}

/// The entries that a track holds, by the manager.
fn held(bytes: &[u8], words: &[u16], track: usize) -> usize {
    manager::entries(MAIN, bytes, words, track as u16).len() / 2
}

#[test]
fn no_history_makes_a_track_hold_more() {
    let (mut calls, mut reached, mut full) = (0, 0, 0);
    for index in 0..4_000 {
        let mut rng = Rng::for_case(8, 6, index);
        let bytes = bounds::bounded(&mut rng).encode();
        let plan = plan::read(&bytes).expect("accepted");
        let tracks = 0..plan.track_count();
        let figures: Vec<usize> = tracks.map(|t| usize::from(figure(&plan, t))).collect();
        let mut most = vec![0; plan.track_count()];
        let mut words = vec![0; ledger::words_needed(MAIN, &plan)];
        assert_eq!(manager::begin(MAIN, &bytes, &mut words), Answer::Done(()));
        let records = match index % 4 {
            0 => onwards(&mut rng, &plan),
            _ => journals::history(&mut rng, MAIN, &plan).0,
        };
        for record in records {
            let answer = perform(&bytes, &plan, &mut words, record);
            full += u32::from(answer == "R21");
            calls += 1;
            for (track, most) in most.iter_mut().enumerate() {
                *most = (*most).max(held(&bytes, &words, track));
                assert!(*most <= figures[track], "{:?}", plan.records());
            }
        }
        let pairs = most.iter().zip(&figures);
        reached += pairs.filter(|(most, f)| most == f && **f > 0).count();
    }
    assert!(calls > 25_000 && reached > 2_000, "{calls} {reached}");
    assert!(full > 1_000, "{full}");
}

#[test]
fn small_plans_are_small() {
    let (mut taken, mut unbound) = (0, 0);
    for index in 0..1_000 {
        let bytes = bounds::small_plan(&mut Rng::for_case(8, 7, index));
        let plan = plan::read(&bytes).expect("accepted");
        assert!(plan.state_count() <= 6 && plan.transition_count() <= 8);
        let bounded = paths::largest(&plan, 0).is_ok();
        taken += u32::from(bounded);
        unbound += u32::from(!bounded);
    }
    assert!(taken > 400 && unbound > 200, "{taken} {unbound}");
}
