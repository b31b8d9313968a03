//! Generated cases against what must hold of all of them.

use std::collections::BTreeMap;

use second::days::Term;
use second::journal::{self, Outcome, Record};
use second::ledger::{self, Clause, Ledger, Mode, Track};
use second::limit::Limit;
use second::manager::{self, Answer};
use second::plan::{self, Plan, Records, Right, Rights, MAX_TRACKS, NONE};
use second::refusal::Refusal;
use second::rules;
use testing::coverage;
use testing::generate::rng::Rng;
use testing::generate::singles::{self, Call, Single};
use testing::generate::{damage, journals, ledgers, neighbours, plans, societies, withdrawals};
use testing::vectors;

/// Either limit in turn.
fn setting(index: u64) -> Limit {
    Limit::SETTINGS[index as usize % 2]
}

#[test]
fn generated_plans_are_accepted() {
    for index in 0..2_000 {
        let mut rng = Rng::for_case(7, 1, index);
        let most_tracks = rng.between(1, MAX_TRACKS);
        let records = plans::records(&mut rng, most_tracks);
        let plan = plan::read(&records.encode()).expect("accepted");
        assert!(plan.track_count() <= most_tracks);
        assert_eq!(*plan.records(), records);
    }
}

#[test]
fn damaged_plans_get_the_wanted_number() {
    for number in damage::NUMBERS {
        for index in 0..40 {
            let mut rng = Rng::for_case(7, u64::from(number), index);
            let bytes = damage::refused_as(&mut rng, MAX_TRACKS, number);
            let refusal = plan::read(&bytes).expect_err("refused");
            assert_eq!(refusal.number(), number);
        }
    }
}

#[test]
fn ledgers_are_sound_or_violate_one_clause() {
    let mut seen = [0; Clause::COUNT];
    for index in 0..6_000 {
        let limit = setting(index);
        let mut rng = Rng::for_case(7, 3, index);
        let plan = plan::read(&plans::bytes(&mut rng, 12)).expect("accepted");
        let sound = ledgers::sound(&mut rng, limit, &plan);
        assert!(ledger::is_of(&plan, &sound.words()));
        assert!(ledger::is_sound(limit, &plan, &sound.words()));
        assert_eq!(Ledger::decode(limit, &plan, &sound.words()), sound);
        for clause in Clause::all() {
            if let Some(words) = ledgers::violate(&mut rng, limit, &plan, clause) {
                assert!(ledger::is_of(&plan, &words));
                assert!(!ledger::is_sound(limit, &plan, &words));
                seen[clause as usize] += 1;
            }
        }
    }
    assert!(seen.iter().all(|&n| n > 20), "{seen:?}");
}

/// Tries the ready tracks from the lowest on, until one is not refused for want
/// of the right; with none, a track that there is not.
fn lowest(limit: Limit, plan: &[u8], words: &mut [u16], society: u16) -> Outcome {
    let ready = match manager::ready(limit, plan, words) {
        Answer::Done(ready) => ready,
        Answer::Refused(refusal) => return Outcome::Refused(refusal),
    };
    let tracks = plan::members(ready).chain([MAX_TRACKS]);
    for track in tracks {
        let outcome = perform(limit, plan, words, Record::Fire(track as u16, society));
        if outcome != Outcome::Refused(Refusal::NoRight) {
            return outcome;
        }
    }
    unreachable!("a missing track refused for want of the right")
}

/// Does a record by the public call; its outcome as the journal's.
fn perform(limit: Limit, plan: &[u8], words: &mut [u16], record: Record) -> Outcome {
    let refused = Outcome::Refused;
    match record {
        Record::Event(event, day, by) => match manager::event(limit, plan, words, event, day, by) {
            Answer::Done(m) => Outcome::Event(event, m),
            Answer::Refused(refusal) => refused(refusal),
        },
        Record::Signal(society) => match manager::signal(limit, plan, words, society) {
            Answer::Done(turned) => Outcome::Signal(turned),
            Answer::Refused(refusal) => refused(refusal),
        },
        Record::Fire(track, society) => match manager::fire(limit, plan, words, track, society) {
            Answer::Done(entry) => Outcome::Fire(track, entry),
            Answer::Refused(refusal) => refused(refusal),
        },
        Record::FireLowest(society) => lowest(limit, plan, words, society),
    }
}

#[test]
fn public_calls_and_rules_agree_and_keep_the_ledger_sound() {
    for index in 0..400 {
        let limit = setting(index);
        let mut rng = Rng::for_case(7, 4, index);
        let bytes = plans::bytes(&mut rng, MAX_TRACKS);
        let plan = plan::read(&bytes).expect("accepted");
        let mut words = ledgers::garbage(&mut rng, limit, &plan);
        let needed = ledger::words_needed(limit, &plan);
        let beyond = words[needed..].to_vec();
        let mut inner = rules::begin(limit, &plan);
        assert_eq!(manager::begin(limit, &bytes, &mut words), Answer::Done(()));
        for record in journals::history(&mut rng, limit, &plan).0 {
            let before = words.clone();
            let outcome = perform(limit, &bytes, &mut words, record);
            assert_eq!(outcome, journal::perform(&plan, &mut inner, record));
            assert_eq!(words[..needed], inner.words());
            assert_eq!(words[needed..], beyond);
            assert!(ledger::is_of(&plan, &words) && ledger::is_sound(limit, &plan, &words));
            let refused = matches!(outcome, Outcome::Refused(_));
            assert!(!refused || words == before);
        }
    }
}

#[test]
fn single_calls_leave_sound_ledgers_sound_and_others_alone() {
    for index in 0..8_000 {
        let mut rng = Rng::for_case(7, 5, index);
        let single = singles::single(&mut rng, MAX_TRACKS);
        let mut words = single.words.clone();
        let record = match single.call.record() {
            Some(record) => record,
            None => continue,
        };
        match perform(single.limit, &single.plan, &mut words, record) {
            Outcome::Refused(_) => assert_eq!(words, single.words),
            _ => {
                let plan = plan::read(&single.plan).expect("accepted");
                let needed = ledger::words_needed(single.limit, &plan);
                assert!(
                    ledger::is_of(&plan, &words) && ledger::is_sound(single.limit, &plan, &words)
                );
                assert_eq!(words[needed..], single.words[needed..]);
            }
        }
    }
}

/// The call's refusal, if it gives one; entries gives none.
fn refusal(single: &Single) -> Option<Refusal> {
    let (plan, mut words) = (&single.plan[..], single.words.clone());
    if let (Call::Ready, Answer::Refused(refusal)) =
        (single.call, manager::ready(single.limit, plan, &words))
    {
        return Some(refusal);
    }
    match perform(single.limit, plan, &mut words, single.call.record()?) {
        Outcome::Refused(refusal) => Some(refusal),
        _ => None,
    }
}

/// The single calls on ledgers begun under another plan, with both plans.
fn on_other_ledgers() -> impl Iterator<Item = (Single, Plan, Plan)> {
    let singles = (0..20_000).map(|index| {
        let mut rng = Rng::for_case(7, 7, index);
        singles::single(&mut rng, MAX_TRACKS)
    });
    singles.filter_map(|single| {
        let other = plan::read(single.begun_under.as_ref()?).expect("accepted");
        let plan = plan::read(&single.plan).expect("accepted");
        Some((single, plan, other))
    })
}

#[test]
fn a_ledger_begun_under_another_plan_is_24_unless_alike_in_both_words() {
    let (mut neighbours, mut alike) = (0, 0);
    for (single, plan, other) in on_other_ledgers() {
        assert_ne!(plan, other);
        assert_eq!(plan.track_count(), other.track_count());
        assert!(
            ledger::is_of(&other, &single.words)
                && ledger::is_sound(single.limit, &other, &single.words)
        );
        let same = ledger::plan_words(&plan) == ledger::plan_words(&other);
        let refusal = refusal(&single);
        match single.call {
            Call::Entries(track) if !same => {
                assert!(
                    manager::entries(single.limit, &single.plan, &single.words, track).is_empty()
                )
            }
            Call::Entries(_) => {}
            _ => assert_eq!(refusal == Some(Refusal::OtherPlan), !same),
        }
        neighbours += u32::from(!same);
        alike += u32::from(same);
    }
    assert!(neighbours > 500 && alike > 250, "{neighbours} {alike}");
}

#[test]
fn a_ledger_begun_under_another_plan_is_begun_anew() {
    for (single, plan, _) in on_other_ledgers().take(400) {
        let mut words = single.words.clone();
        assert_eq!(
            manager::begin(single.limit, &single.plan, &mut words),
            Answer::Done(())
        );
        let needed = ledger::words_needed(single.limit, &plan);
        assert_eq!(words[..needed], rules::begin(single.limit, &plan).words());
        assert_eq!(words[needed..], single.words[needed..]);
    }
}

#[test]
fn plans_alike_have_other_bytes_and_the_same_leading_words() {
    let mut found = 0;
    for index in 0..500 {
        let mut rng = Rng::for_case(7, 8, index);
        let plan = plan::read(&plans::bytes(&mut rng, MAX_TRACKS)).expect("accepted");
        if let Some(other) = neighbours::alike(&mut rng, &plan) {
            assert_ne!(plan.records(), other.records());
            assert_eq!(ledger::plan_words(&plan), ledger::plan_words(&other));
            found += 1;
        }
    }
    assert!(found > 200, "{found}");
}

#[test]
fn some_firing_is_allowed_while_an_undoing_track_holds_an_entry() {
    let mut undoing = 0;
    for index in 0..3_000 {
        let limit = setting(index);
        let mut rng = Rng::for_case(7, 6, index);
        let plan = plan::read(&plans::bytes(&mut rng, MAX_TRACKS)).expect("accepted");
        let mut ledger = ledgers::sound(&mut rng, limit, &plan);
        let society = societies::any(&mut rng, &plan);
        let done = rules::signal(&plan, &mut ledger, society).is_ok();
        let holds = |t: &Track| t.mode == Mode::Undoing && t.held() > 0;
        if done && ledger.tracks.iter().any(holds) {
            assert_ne!(rules::ready(&plan, &ledger), 0);
            undoing += 1;
        }
    }
    assert!(undoing > 1_000, "{undoing}");
}

/// Whether the track is forward in a final state.
fn has_ended(plan: &Plan, ledger: &Ledger, track: usize) -> bool {
    let track = &ledger.tracks[track];
    track.mode == Mode::Forward && plan.is_final(track.state)
}

/// Whether the track is undoing and the scope of its state asleep.
fn is_undoing_alone(plan: &Plan, ledger: &Ledger, track: usize) -> bool {
    let mut scope = plan::members(plan.scope(ledger.tracks[track].state));
    ledger.tracks[track].mode == Mode::Undoing && !scope.any(|t| ledger.tracks[t].is_awake())
}

/// What must hold of a call that puts every track to sleep.
fn finish_is_allowed(plan: &Plan, before: &Ledger, outcome: Outcome) {
    let roots: Vec<usize> = plan.roots().collect();
    match outcome {
        Outcome::Event(_, m) => {
            assert!(m.moved > 0 && m.closed == 0);
            let waits = |&t: &usize| is_undoing_alone(plan, before, t);
            let (spent, others): (Vec<usize>, Vec<usize>) = roots.iter().partition(|t| waits(t));
            assert!(spent.iter().all(|&t| before.tracks[t].held() == 0));
            let forward = |&t: &usize| before.tracks[t].mode == Mode::Forward;
            assert!(!others.is_empty() && others.iter().all(forward));
            let moving = |&t: &usize| !has_ended(plan, before, t);
            assert!(others.iter().filter(|t| moving(t)).count() <= usize::from(m.moved));
        }
        Outcome::Fire(_, entry) => {
            assert_eq!(entry.deviation, NONE);
            let ended: Vec<usize> = roots
                .iter()
                .copied()
                .filter(|&t| has_ended(plan, before, t))
                .collect();
            assert!(!ended.is_empty() && ended.len() < roots.len());
            let dropped: usize = ended.iter().map(|&t| before.tracks[t].held()).sum();
            assert_eq!(before.total_held(), dropped + 1);
        }
        Outcome::Signal(turned) => {
            let ended = roots.iter().filter(|&&t| has_ended(plan, before, t));
            assert!(turned > 0 && (1..roots.len()).contains(&ended.count()));
            let holds = |&t: &usize| before.tracks[t].held() > 0;
            let mut tracks = (0..plan.track_count()).filter(holds);
            assert!(tracks.all(|t| has_ended(plan, before, t)));
        }
        Outcome::Refused(_) => panic!("finish by {outcome:?}"),
    }
}

#[test]
fn a_finish_comes_once_all_else_is_spent() {
    let (mut by_event, mut by_firing, mut by_signal) = (0, 0, 0);
    for index in 0..4_000 {
        let limit = setting(index);
        let mut rng = Rng::for_case(7, 10, index);
        let plan = plans::linked_records(&mut rng, MAX_TRACKS).encode();
        let plan = plan::read(&plan).expect("accepted");
        let mut ledger = rules::begin(limit, &plan);
        for record in journals::history(&mut rng, limit, &plan).0 {
            let before = ledger.clone();
            let outcome = journal::perform(&plan, &mut ledger, record);
            if ledger.is_over() && !before.is_over() {
                finish_is_allowed(&plan, &before, outcome);
                by_event += u32::from(matches!(outcome, Outcome::Event(..)));
                by_firing += u32::from(matches!(outcome, Outcome::Fire(..)));
                by_signal += u32::from(matches!(outcome, Outcome::Signal(_)));
            }
        }
    }
    assert!(by_event > 800 && by_firing > 80, "{by_event} {by_firing}");
    assert!(by_signal > 80, "{by_signal}");
}

#[test]
fn ledgers_near_their_finish_are_sound_and_often_a_call_away() {
    let (mut away, mut spent) = (0, 0);
    for index in 0..2_000 {
        let limit = setting(index);
        let mut rng = Rng::for_case(7, 11, index);
        let plan = plans::linked_records(&mut rng, MAX_TRACKS).encode();
        let plan = plan::read(&plan).expect("accepted");
        let near = ledgers::near_finish(&mut rng, limit, &plan);
        assert!(!near.is_over() && ledger::is_sound(limit, &plan, &near.words()));
        let events = journals::moving_events(&plan, &near, |_| true);
        let on_day = |e| journals::event_of(&mut rng, &plan, &near, e);
        let mut records: Vec<Record> = events.into_iter().map(on_day).collect();
        for society in societies::named(&plan) {
            let tracks = 0..plan.track_count() as u16;
            records.extend(tracks.map(|track| Record::Fire(track, society)));
        }
        let mut records = records.into_iter();
        away += u32::from(records.any(|record| {
            let mut after = near.clone();
            journal::perform(&plan, &mut after, record);
            after.is_over()
        }));
        let undoing = near.tracks.iter().all(|t| t.mode != Mode::Forward);
        spent += u32::from(undoing && near.total_held() == 0);
    }
    assert!(away > 700 && spent > 100, "{away} {spent}");
}

#[test]
fn short_histories_end_half_withdrawn_by_each_sort_of_call() {
    let (mut by_event, mut by_firing, mut by_signal) = (0, 0, 0);
    for index in 0..200 {
        let limit = setting(index);
        let mut rng = Rng::for_case(7, 12, index);
        let (bytes, records) = journals::half_withdrawn(&mut rng, limit, 3);
        let plan = plan::read(&bytes).expect("accepted");
        assert!(plan.track_count() <= 3 && records.len() <= 8);
        let mut ledger = rules::begin(limit, &plan);
        for record in records {
            let undoing = plan.roots().any(|t| ledger.tracks[t].mode == Mode::Undoing);
            let over = ledger.is_over();
            let outcome = journal::perform(&plan, &mut ledger, record);
            let ends = ledger.is_over() && !over;
            by_signal += u32::from(ends && matches!(outcome, Outcome::Signal(_)));
            if undoing && ledger.is_over() {
                by_event += u32::from(matches!(outcome, Outcome::Event(..)));
                by_firing += u32::from(matches!(outcome, Outcome::Fire(..)));
            }
        }
    }
    assert!(by_event > 60 && by_firing > 60, "{by_event} {by_firing}");
    assert!(by_signal > 30, "{by_signal}");
}

/// The records without the transitions that may not be taken on a day, and
/// without windows.
fn open_on(plan: &Plan, day: i32) -> Records {
    let mut records = plan.records().clone();
    let shut = |n: u16| {
        let mut windows = plan.records().windows.iter();
        windows.any(|w| w.transition == n && !(w.term.first..=w.term.last).contains(&day))
    };
    let mut number = 0..;
    records
        .transitions
        .retain(|_| !shut(number.next().expect("a number")));
    records.windows.clear();
    records
}

#[test]
fn an_event_does_what_it_does_without_the_steps_that_the_day_forbids() {
    let (mut moving, mut shut) = (0, 0);
    for index in 0..4_000 {
        let limit = setting(index);
        let mut rng = Rng::for_case(7, 13, index);
        let plan = plan::read(&plans::bytes(&mut rng, 8)).expect("accepted");
        let mut ledger = ledgers::sound(&mut rng, limit, &plan);
        let event = journals::any_event(&mut rng, &plan);
        let day = journals::event_day(&mut rng, &plan, &ledger, event);
        let society = journals::mover(&mut rng, &plan, &ledger, event);
        let open = plan::read(&open_on(&plan, day).encode()).expect("accepted");
        let mut other = rules::begin(limit, &open);
        other.tracks = ledger.tracks.clone();
        if day < ledger.day || !Term::RANGE.contains(day) {
            let refused = rules::event(&plan, &mut ledger, event, day, society);
            assert!(matches!(refused, Err(Refusal::Day)));
            continue;
        }
        let answer = rules::event(&plan, &mut ledger, event, day, society);
        assert_eq!(answer, rules::event(&open, &mut other, event, day, society));
        assert_eq!(ledger.tracks, other.tracks);
        moving += u32::from(matches!(answer, Ok(m) if m.moved > 0));
        shut += u32::from(open.transition_count() < plan.transition_count());
    }
    assert!(moving > 700 && shut > 1_000, "{moving} {shut}");
}

/// The plan with every right for a society over the roots where it has this one,
/// and with no others: what is left aside elsewhere is then never struck.
fn held_alone(plan: &Plan, right: Right, society: u16) -> Records {
    let roots = plan.roots().filter(|&t| plan.allows(society, right, t));
    let all = |t: usize| Rights {
        society,
        root: t as u16,
        sum: Rights::ALL,
    };
    Records {
        rights: roots.map(all).collect(),
        ..plan.records().clone()
    }
}

#[test]
fn other_rights_and_other_societies_change_nothing_for_a_call() {
    let (mut events, mut signals) = (0, 0);
    for index in 0..3_000 {
        let limit = setting(index);
        let mut rng = Rng::for_case(7, 16, index);
        let plan = plan::read(&plans::linked_records(&mut rng, 8).encode()).expect("accepted");
        let ledger = ledgers::sound(&mut rng, limit, &plan);
        let society = societies::any(&mut rng, &plan);
        let event = journals::any_event(&mut rng, &plan);
        let calls = [
            (Right::Move, Record::Event(event, ledger.day, society)),
            (Right::Signal, Record::Signal(society)),
        ];
        for (right, record) in calls {
            let records = held_alone(&plan, right, society);
            let alone = plan::read(&records.encode()).expect("accepted");
            let (mut first, mut second) = (ledger.clone(), ledger.clone());
            let outcome = journal::perform(&plan, &mut first, record);
            assert_eq!(outcome, journal::perform(&alone, &mut second, record));
            assert_eq!(first, second);
            events += u32::from(matches!(outcome, Outcome::Event(_, m) if m.moved > 0));
            signals += u32::from(matches!(outcome, Outcome::Signal(turned) if turned > 0));
        }
    }
    assert!(events > 400 && signals > 800, "{events} {signals}");
}

#[test]
fn calls_strike_no_track_under_another_root() {
    let (mut struck, mut refused) = (0, 0);
    for index in 0..1_000 {
        let limit = setting(index);
        let mut rng = Rng::for_case(7, 17, index);
        let plan = plan::read(&plans::linked_records(&mut rng, 8).encode()).expect("accepted");
        let mut ledger = rules::begin(limit, &plan);
        for record in journals::history(&mut rng, limit, &plan).0 {
            let before = ledger.clone();
            let outcome = journal::perform(&plan, &mut ledger, record);
            let (right, society) = match record {
                Record::Event(_, _, society) => (Right::Move, society),
                Record::Signal(society) => (Right::Signal, society),
                Record::Fire(_, society) | Record::FireLowest(society) => (Right::Fire, society),
            };
            let others = |&t: &usize| !plan.allows(society, right, t);
            let others = (0..plan.track_count()).filter(others);
            if !ledger.is_over() {
                others.for_each(|t| assert_eq!(ledger.tracks[t], before.tracks[t]));
            }
            struck += u32::from(ledger.tracks != before.tracks);
            refused += u32::from(outcome == Outcome::Refused(Refusal::NoRight));
        }
    }
    assert!(struck > 5_000 && refused > 300, "{struck} {refused}");
}

/// A plan with a root that one society alone holds, that root and the society.
fn held_root(rng: &mut Rng) -> Option<(Plan, u16)> {
    let plan = plan::read(&plans::linked_records(rng, 8).encode()).expect("accepted");
    let rights = &plan.records().rights;
    let own = |society: u16| rights.iter().filter(move |r| r.society == society);
    let shares = |root: u16, society: u16| {
        rights
            .iter()
            .any(|r| r.root == root && r.society != society)
    };
    let alone = |&society: &u16| own(society).all(|r| !shares(r.root, society));
    let several = plan.roots().count() > 1 && societies::named(&plan).len() > 1;
    let society = societies::named(&plan).into_iter().find(alone);
    society.filter(|_| several).map(|society| (plan, society))
}

/// Whether the record is a call of that society.
fn is_of(record: Record, own: u16) -> bool {
    match record {
        Record::Event(_, _, society) | Record::Fire(_, society) => society == own,
        Record::Signal(society) | Record::FireLowest(society) => society == own,
    }
}

#[test]
fn a_society_that_shares_no_root_is_answered_alike_whatever_others_do() {
    let (mut compared, mut others) = (0, 0);
    for index in 0..3_000 {
        let limit = setting(index);
        let mut rng = Rng::for_case(7, 18, index);
        let (plan, society) = match held_root(&mut rng) {
            Some(held) => held,
            None => continue,
        };
        let (mut with, mut without) = (rules::begin(limit, &plan), rules::begin(limit, &plan));
        for record in journals::history(&mut rng, limit, &plan).0 {
            let outcome = journal::perform(&plan, &mut with, record);
            if is_of(record, society) {
                let alone = journal::perform(&plan, &mut without, record);
                let day = Outcome::Refused(Refusal::Day);
                if with.is_over() || without.is_over() || outcome == day || alone == day {
                    break;
                }
                assert_eq!(outcome, alone);
                compared += 1;
            } else if with.is_over() {
                break;
            } else {
                others += u32::from(!matches!(outcome, Outcome::Refused(_)));
            }
            let own = (0..plan.track_count()).filter(|&t| {
                let rights = &plan.records().rights;
                let root = plan.root_of(t) as u16;
                rights
                    .iter()
                    .any(|r| r.society == society && r.root == root)
            });
            own.for_each(|t| assert_eq!(with.tracks[t], without.tracks[t]));
        }
    }
    assert!(compared > 1_500 && others > 1_500, "{compared} {others}");
}

#[test]
fn accepted_days_never_fall_and_are_kept() {
    let (mut kept, mut refused) = (0, 0);
    for index in 0..1_000 {
        let limit = setting(index);
        let mut rng = Rng::for_case(7, 14, index);
        let plan = plan::read(&plans::bytes(&mut rng, MAX_TRACKS)).expect("accepted");
        let mut ledger = rules::begin(limit, &plan);
        assert_eq!(ledger.day, -109_573);
        for record in journals::history(&mut rng, limit, &plan).0 {
            let before = ledger.day;
            let outcome = journal::perform(&plan, &mut ledger, record);
            match (record, outcome) {
                (Record::Event(_, day, _), Outcome::Event(..)) => {
                    assert!(day >= before && ledger.day == day);
                    kept += 1;
                }
                (Record::Event(_, day, _), Outcome::Refused(Refusal::Day)) => {
                    assert!(day < before || day > 182_620);
                    assert_eq!(ledger.day, before);
                    refused += 1;
                }
                _ => assert_eq!(ledger.day, before),
            }
        }
    }
    assert!(kept > 5_000 && refused > 200, "{kept} {refused}");
}

#[test]
fn conversions_are_found_and_refused() {
    let (mut found, mut refused) = (0, 0);
    for index in 0..2_000 {
        let mut rng = Rng::for_case(7, 15, index);
        let line = vectors::conversion_line(&mut rng);
        let again = vectors::conversion_line(&mut Rng::for_case(7, 15, index));
        assert_eq!(line, again);
        let fields: Vec<&str> = line.split(';').collect();
        assert_eq!(fields.len(), 6);
        match fields[4] {
            "R26" => refused += 1,
            answer => {
                assert!(answer.starts_with('D'), "{line}");
                found += 1;
            }
        }
    }
    assert!(found > 800 && refused > 500, "{found} {refused}");
}

#[test]
fn largest_numbers_are_found_and_refused() {
    let (mut found, mut unbounded, mut refused) = (0, 0, 0);
    for index in 0..1_000 {
        let line = vectors::small_largest_line(&mut Rng::for_case(7, 19, index));
        let again = vectors::small_largest_line(&mut Rng::for_case(7, 19, index));
        assert_eq!(line, again);
        let fields: Vec<&str> = line.split(';').collect();
        assert!(fields.len() == 6 && fields[3].starts_with('M'), "{line}");
        match fields[4] {
            "R29" => unbounded += 1,
            answer if answer.starts_with('R') => refused += 1,
            answer => {
                assert!(answer.starts_with('D'), "{line}");
                found += 1;
            }
        }
    }
    let least = found.min(unbounded);
    assert!(least > 200 && refused > 20, "{found} {unbounded} {refused}");
}

#[test]
fn ledgers_of_withdrawals_are_of_every_sort() {
    let mut sorts: BTreeMap<(String, bool), u32> = BTreeMap::new();
    for index in 0..2_000 {
        let line = vectors::withdrawal_line(&mut Rng::for_case(7, 20, index), 3);
        let fields: Vec<&str> = line.split(';').collect();
        let sort = (fields[5].to_string(), fields[6] == "0");
        *sorts.entry(sort).or_default() += 1;
    }
    // Where nothing is held no deviation is, and where none is forward all are
    // turned.
    assert_eq!(sorts.len(), 9, "{sorts:?}");
    assert!(sorts.values().all(|&count| count > 30), "{sorts:?}");
}

#[test]
fn orders_of_firing_go_on_stop_and_are_none() {
    let (mut ended, mut long, mut early, mut none) = (0, 0, 0, 0);
    for index in 0..2_000 {
        let line = vectors::order_line(&mut Rng::for_case(7, 21, index), 3);
        let fields: Vec<&str> = line.split(';').collect();
        match fields[5] {
            "no" => none += 1,
            answer if answer.starts_with("D0,") => {
                ended += 1;
                long += u32::from(fields[4].split(',').count() >= 3);
            }
            _ => early += 1,
        }
    }
    assert!(ended > 800 && long > 100, "{ended} {long}");
    assert!(early > 100 && none > 500, "{early} {none}");
}

/// Why the first of these tracks that may not be fired may not; none where all
/// may, one after the other.
fn obstacle(plan: &Plan, mut ledger: Ledger, tracks: &[u16]) -> Option<&'static str> {
    for (fired, &track) in tracks.iter().enumerate() {
        let track = usize::from(track);
        if rules::fire_freely(plan, &mut ledger, track).is_ok() {
            continue;
        }
        return Some(match ledger.tracks.get(track) {
            None => "no track",
            Some(own) if own.mode == Mode::Asleep => "asleep",
            Some(own) if own.mode == Mode::Forward => "forward",
            Some(own) if own.held() > 0 => "a host before its branches",
            _ if fired > 0 && rules::ready(plan, &ledger) == 0 => "one too many",
            _ => "nothing held",
        });
    }
    None
}

#[test]
fn small_ledgers_are_sound_and_orders_fail_in_every_way() {
    let mut obstacles = BTreeMap::new();
    for index in 0..4_000 {
        let limit = setting(index);
        let mut rng = Rng::for_case(7, 22, index);
        let most_tracks = rng.between(1, 4);
        let (bytes, ledger) = withdrawals::small(&mut rng, limit, most_tracks);
        let plan = plan::read(&bytes).expect("accepted");
        assert!(plan.track_count() <= most_tracks);
        assert!(ledger::is_sound(limit, &plan, &ledger.words()));
        let tracks = withdrawals::order(&mut rng, &plan, &ledger);
        let obstacle = obstacle(&plan, ledger, &tracks);
        *obstacles.entry(obstacle).or_insert(0) += 1;
    }
    assert_eq!(obstacles.len(), 7, "{obstacles:?}");
    let rarest = obstacles.values().min();
    assert!(rarest > Some(&25), "{obstacles:?}");
}

#[test]
fn lines_are_made_again_from_the_same_seed() {
    let lines: [fn(&mut Rng, usize) -> String; 6] = [
        vectors::history_line,
        vectors::plan_line,
        vectors::single_line,
        vectors::unwind_line,
        vectors::withdrawal_line,
        vectors::order_line,
    ];
    let fields = [6, 3, 6, 4, 7, 6];
    for (line, fields) in lines.into_iter().zip(fields) {
        for index in 0..50 {
            let first = line(&mut Rng::for_case(1, 9, index), 4);
            let again = line(&mut Rng::for_case(1, 9, index), 4);
            assert_eq!(first, again);
            assert_eq!(first.split(';').count(), fields);
        }
    }
}

#[test]
fn a_small_batch_reaches_most_rows() {
    let rows = coverage::batch(3, 300).rows();
    let reached = rows.iter().filter(|row| row.count > 0).count();
    assert_eq!(rows.len(), 229);
    assert!(reached >= 219, "{reached}");
}
