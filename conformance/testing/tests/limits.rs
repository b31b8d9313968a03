//! Generated cases at both limits, at others, and across them.

use second::journal::{self, Outcome, Record};
use second::ledger::{self, Clause, Ledger};
use second::limit::Limit;
use second::manager::{self, Answer};
use second::plan::{self, members, Plan, MAX_TRACKS};
use second::refusal::Refusal;
use second::rules;
use testing::generate::rng::Rng;
use testing::generate::singles::{self, Call};
use testing::generate::{journals, ledgers, plans, withdrawals};
use testing::vectors;

/// Both settings, and limits that no program has.
const ANY: [Limit; 8] = [
    Limit(0),
    Limit(1),
    Limit(2),
    Limit(3),
    Limit(8),
    Limit(13),
    Limit(32),
    Limit(100),
];

fn any(index: u64) -> Limit {
    ANY[index as usize % ANY.len()]
}

#[test]
fn ledgers_are_sound_or_violate_one_clause_at_any_limit() {
    let mut seen = [[0; Clause::COUNT]; ANY.len()];
    for index in 0..8_000 {
        let mut rng = Rng::for_case(10, 1, index);
        let limit = any(index);
        let plan = plan::read(&plans::bytes(&mut rng, 8)).expect("accepted");
        for sound in [
            ledgers::sound(&mut rng, limit, &plan),
            ledgers::brimming(&mut rng, limit, &plan),
            ledgers::near_finish(&mut rng, limit, &plan),
        ] {
            let words = sound.words();
            assert_eq!(
                words.len(),
                4 + (3 + 2 * limit.entries()) * plan.track_count()
            );
            assert!(ledger::is_sound(limit, &plan, &words));
            assert_eq!(Ledger::decode(limit, &plan, &words), sound);
            assert!(sound.tracks.iter().all(|t| t.held() <= limit.entries()));
        }
        for clause in Clause::all() {
            if let Some(words) = ledgers::violate(&mut rng, limit, &plan, clause) {
                assert!(!ledger::is_sound(limit, &plan, &words));
                seen[index as usize % ANY.len()][clause as usize] += 1;
            }
        }
    }
    // What needs an entry or an unused pair is not to be had at limit 0.
    for (limit, seen) in ANY.iter().zip(seen).skip(1) {
        assert!(seen.iter().all(|&n| n > 10), "{limit:?} {seen:?}");
    }
    assert!(
        seen[0][Clause::CountsInRange as usize] > 100,
        "{:?}",
        seen[0]
    );
}

/// A record by the public call at a limit; its answer as text.
fn perform(limit: Limit, bytes: &[u8], plan: &Plan, words: &mut [u16], record: Record) -> String {
    let ledger = Ledger::decode(limit, plan, words);
    let call = match record {
        Record::FireLowest(society) => {
            Call::Fire(journal::lowest_ready(plan, &ledger, society), society)
        }
        _ => Call::of(record).expect("a call"),
    };
    vectors::answer(limit, bytes, words, call)
}

#[test]
fn histories_at_any_limit_keep_the_ledger_sound_and_words_beyond() {
    let mut full = [0; ANY.len()];
    for index in 0..1_600 {
        let mut rng = Rng::for_case(10, 2, index);
        let limit = any(index);
        let bytes = plans::bytes(&mut rng, 12);
        let plan = plan::read(&bytes).expect("accepted");
        let mut words = ledgers::garbage(&mut rng, limit, &plan);
        let needed = ledger::words_needed(limit, &plan);
        let beyond = words[needed..].to_vec();
        assert_eq!(manager::begin(limit, &bytes, &mut words), Answer::Done(()));
        let mut inner = rules::begin(limit, &plan);
        for record in journals::history(&mut rng, limit, &plan).0 {
            let before = words.clone();
            let answer = perform(limit, &bytes, &plan, &mut words, record);
            journal::perform(&plan, &mut inner, record);
            assert_eq!(words[..needed], inner.words());
            assert_eq!(words[needed..], beyond);
            assert!(ledger::is_sound(limit, &plan, &words));
            assert!(answer.starts_with('D') || words == before);
            full[index as usize % ANY.len()] += u32::from(answer == "R21");
        }
    }
    assert!(full[..7].iter().all(|&n| n > 50), "{full:?}");
    assert!(full[0] > full[2] && full[2] > full[4], "{full:?}");
}

/// Whether the record is refused as 21.
fn is_full_for(plan: &Plan, ledger: &Ledger, record: Record) -> bool {
    let mut after = ledger.clone();
    journal::perform(plan, &mut after, record) == Outcome::Refused(Refusal::Full)
}

#[test]
fn answers_are_those_at_32_until_a_ninth_entry_is_asked_for() {
    let (mut whole, mut parted) = (0, 0);
    for index in 0..2_000 {
        let mut rng = Rng::for_case(10, 3, index);
        let plan = plan::read(&plans::bytes(&mut rng, MAX_TRACKS)).expect("accepted");
        let mut at_8 = rules::begin(Limit::READING_ROOM, &plan);
        let mut at_32 = rules::begin(Limit::MAIN, &plan);
        let records = journals::history(&mut rng, Limit::MAIN, &plan).0;
        let filled = records.into_iter().any(|record| {
            if is_full_for(&plan, &at_8, record) {
                return true;
            }
            let outcome = journal::perform(&plan, &mut at_32, record);
            assert_eq!(journal::perform(&plan, &mut at_8, record), outcome);
            assert_eq!((at_8.day, &at_8.tracks), (at_32.day, &at_32.tracks));
            false
        });
        whole += u32::from(!filled);
        parted += u32::from(filled);
    }
    assert!(whole > 1_000 && parted > 100, "{whole} {parted}");
}

#[test]
fn single_calls_at_either_limit_and_across_write_no_word_beyond() {
    let (mut at_8, mut across, mut done) = ([0; 2], [0; 2], 0);
    for index in 0..20_000 {
        let single = singles::single(&mut Rng::for_case(10, 4, index), MAX_TRACKS);
        let main = usize::from(single.limit == Limit::MAIN);
        at_8[main] += 1;
        across[main] += u32::from(single.made_at.is_some());
        assert_ne!(single.made_at, Some(single.limit));
        let mut words = single.words.clone();
        let answer = vectors::answer(single.limit, &single.plan, &mut words, single.call);
        if answer.starts_with('D') {
            let plan = plan::read(&single.plan).expect("accepted");
            let needed = ledger::words_needed(single.limit, &plan);
            assert!(ledger::is_sound(single.limit, &plan, &words));
            assert_eq!(words[needed..], single.words[needed..]);
            done += 1;
        } else {
            assert_eq!(words, single.words);
        }
    }
    assert!(at_8[0] > 6_000 && at_8[1] > 12_000, "{at_8:?}");
    assert!(
        across[0] > 150 && across[1] > 300 && done > 5_000,
        "{across:?} {done}"
    );
}

#[test]
fn no_more_firings_follow_one_another_than_limit_times_tracks() {
    let (mut longest, mut bound_met) = (0, 0);
    for index in 0..4_000 {
        let mut rng = Rng::for_case(10, 5, index);
        let limit = any(index);
        let plan = plan::read(&plans::bytes(&mut rng, 4)).expect("accepted");
        let mut ledger = ledgers::brimming(&mut rng, limit, &plan);
        let bound = limit.entries() * plan.track_count();
        let mut fired = 0;
        while let Some(track) = members(rules::ready(&plan, &ledger)).next() {
            let entry = rules::fire_freely(&plan, &mut ledger, track).expect("ready");
            fired += 1;
            assert!(fired <= bound);
            if entry.deviation != plan::NONE {
                fired = 0;
            }
        }
        longest = longest.max(fired);
        bound_met += u32::from(fired == bound && bound > 0);
    }
    assert!(longest > 100 && bound_met > 20, "{longest} {bound_met}");
}

#[test]
fn withdrawals_at_8_have_as_many_firings_as_entries_held() {
    let (mut withdrawals, mut entries, mut full) = (0, 0, 0);
    for index in 0..4_000 {
        let mut rng = Rng::for_case(10, 6, index);
        let limit = Limit::READING_ROOM;
        let withdrawal = withdrawals::withdrawal(&mut rng, limit);
        let plan = plan::read(&withdrawal.plan).expect("accepted");
        let mut ledger = rules::begin(limit, &plan);
        for &record in &withdrawal.records {
            journal::perform(&plan, &mut ledger, record);
        }
        let mut tracks = ledger.tracks.iter();
        let turned = tracks.all(|t| t.mode != second::ledger::Mode::Forward);
        let mut held = ledger.tracks.iter().flat_map(|t| t.entries());
        if ledger.is_over() || !turned || held.any(|e| e.deviation != plan::NONE) {
            continue;
        }
        let held = ledger.total_held();
        full += u32::from(ledger.tracks.iter().any(|t| t.is_full(limit)));
        let mut fired = 0;
        while let Some(track) = members(rules::ready(&plan, &ledger)).next() {
            rules::fire_freely(&plan, &mut ledger, track).expect("ready");
            fired += 1;
        }
        assert_eq!((fired, ledger.total_held()), (held, 0));
        withdrawals += u32::from(held > 0);
        entries += held;
    }
    assert!(
        withdrawals > 1_300 && entries > 5_000,
        "{withdrawals} {entries}"
    );
    assert!(full > 100, "{full}");
}

#[test]
fn lines_are_of_every_limit_and_tell_it() {
    let lines: [fn(&mut Rng, usize) -> String; 5] = [
        vectors::history_line,
        vectors::single_line,
        vectors::unwind_line,
        vectors::withdrawal_line,
        vectors::order_line,
    ];
    for line in lines {
        let (mut main, mut reading_room, mut other) = (0, 0, 0);
        for index in 0..400 {
            let line = line(&mut Rng::for_case(10, 7, index), 3);
            let first = line.split(';').next().expect("a field");
            let (letter, limit) = vectors::letter_and_limit(first).expect("a limit");
            assert_eq!(vectors::mark(letter, limit), first);
            match limit {
                Limit::MAIN => main += 1,
                Limit::READING_ROOM => reading_room += 1,
                _ => other += 1,
            }
        }
        assert!(main > 120 && reading_room > 100 && other > 30);
    }
    assert_eq!(vectors::mark("L", Limit(32)), "L");
    assert_eq!(vectors::letter_and_limit("L"), Some(("L", Limit::MAIN)));
    assert_eq!(vectors::letter_and_limit("L0"), Some(("L", Limit(0))));
    assert_eq!(vectors::letter_and_limit(""), None);
}
