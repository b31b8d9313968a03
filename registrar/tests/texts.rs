//! Texts of plans and journals: written and read again they say the same.

#[allow(dead_code)]
mod common;

use registrar::draft::{Draft, Name};
use registrar::journal::{self, Call};
use registrar::records::Records;
use registrar::{journal_text, plan_text};
use retraction::{Limit, Plan};
use std::fs;
use std::path::PathBuf;
use testing::generate::rng::Rng;
use testing::generate::{journals, plans};

const SEED: u64 = 1900;

/// An accepted plan of one sort or another.
fn any_plan(index: u64) -> Vec<u8> {
    let mut rng = Rng::for_case(SEED, 1, index);
    let records = match index % 10 {
        0..=5 => plans::records(&mut rng, 32),
        6..=7 => plans::linked_records(&mut rng, 32),
        8 => plans::small_linked_records(&mut rng, 32),
        _ => plans::records_of(&mut rng, 32),
    };
    records.encode()
}

fn draft_of(bytes: &[u8]) -> Draft {
    Draft::of_records(Records::decode(bytes).expect("the records of an accepted plan"))
}

/// Whether some line has this word in front of a number.
fn numbers_written(text: &str, word: &str) -> bool {
    text.lines().any(|line| {
        let words: Vec<&str> = line.split_whitespace().collect();
        let number = |word: &str| word.parse::<u16>().is_ok();
        let right = |two: &[&str]| {
            word != "right" || number(two[1]) && words.get(2).map_or(false, |w| number(w))
        };
        words
            .windows(2)
            .any(|two| two[0] == word && number(two[1]) && right(two))
    })
}

#[test]
fn every_accepted_plan_is_read_back() {
    let sorts = ["track", "state", "step", "window", "right"];
    let mut needed = [0; 5];
    for index in 0..12_000 {
        let bytes = any_plan(index);
        assert!(Plan::read(&bytes[..]).is_ok());
        let draft = draft_of(&bytes);
        assert_eq!(draft.records.encode(), bytes);
        let text = assert_read_back(&draft);
        for (count, sort) in needed.iter_mut().zip(sorts) {
            *count += usize::from(numbers_written(&text, sort));
        }
    }
    assert_eq!(needed[0], 0, "tracks stand in their order");
    assert!(needed[1..].iter().all(|&count| count > 500), "{needed:?}");
}

#[test]
fn every_history_is_read_back() {
    let (mut calls_read, mut of_rooms) = (0, 0);
    for index in 0..3_000 {
        let mut rng = Rng::for_case(SEED, 2, index);
        let bytes = plans::bytes(&mut rng, 32);
        let plan = second::plan::read(&bytes).expect("an accepted plan");
        let mut journal = Vec::new();
        for record in journals::history(&mut rng, second::limit::Limit::MAIN, &plan).0 {
            record.encode(&mut journal);
        }
        let (calls, broken) = journal::decode(&journal);
        assert_eq!(broken, None);
        let draft = draft_of(&bytes);
        let limit = any_limit(&mut rng);
        let text = journal_text::write(&calls, limit, &draft);
        let again = journal_text::read(&text, &draft).expect("a journal");
        assert_eq!(again.calls, calls, "{text}");
        assert_eq!(again.limit, limit, "{text}");
        assert_eq!(again.lines.len(), calls.len());
        assert_eq!(journal_text::write(&again.calls, limit, &draft), text);
        let days = calls.iter().rev().find_map(|call| match call {
            Call::Event { day, .. } => Some(*day),
            _ => None,
        });
        assert_eq!(again.day, days);
        assert_eq!(again.society, calls.last().map(|call| call.society()));
        calls_read += calls.len();
        of_rooms += usize::from(limit == Limit::ReadingRoom);
    }
    assert!(calls_read > 20_000, "{calls_read}");
    assert!((500..1_500).contains(&of_rooms), "{of_rooms}");
}

/// The reading rooms' now and then.
fn any_limit(rng: &mut Rng) -> Limit {
    match rng.chance(30) {
        true => Limit::ReadingRoom,
        false => Limit::Main,
    }
}

/// Each sample is an accepted plan. Where bytes stand beside a text, they are the
/// text's.
#[test]
fn samples_are_plans_and_journals() {
    let read = |path: PathBuf| fs::read_to_string(path).expect("a text");
    for sample in common::samples() {
        let draft = plan_text::read(&read(sample.file("plan.txt"))).expect("a plan");
        let bytes = draft.records.encode();
        assert!(Plan::read(&bytes[..]).is_ok(), "{:?}", sample.folder);
        assert_read_back(&draft);
        if let Ok(stored) = fs::read(sample.file("plan.bin")) {
            assert_eq!(stored, bytes, "{:?}", sample.folder);
        }
        for journal in &sample.journals {
            let text = read(sample.file(&format!("{journal}.txt")));
            let read = journal_text::read(&text, &draft).expect("a journal");
            let calls = read.calls;
            let again = journal_text::write(&calls, read.limit, &draft);
            let again = journal_text::read(&again, &draft).expect("a journal");
            assert_eq!((&again.calls, again.limit), (&calls, read.limit));
            if let Ok(stored) = fs::read(sample.file(&format!("{journal}.bin"))) {
                assert_eq!(stored, journal::encode(&calls), "{:?}", sample.folder);
            }
        }
    }
}

/// A draft's text is read as the same draft, and written as the same text.
fn assert_read_back(draft: &Draft) -> String {
    let text = plan_text::write(draft);
    let again = plan_text::read(&text).unwrap_or_else(|faults| panic!("{faults:?}\n{text}"));
    assert_eq!(again.records, draft.records, "{text}");
    assert_eq!(again.names, draft.names, "{text}");
    assert_eq!(plan_text::write(&again), text);
    text
}

const WORDS: [&str; 7] = [
    "",
    "on the shelf",
    "says \"no\"",
    "# no remark",
    "\"",
    "Åsa och Örjan",
    "in STATE",
];

/// Other names for all that a draft has: states of one name in several tracks,
/// tables with some of their numbers, words of all sorts.
fn rename(rng: &mut Rng, draft: &mut Draft) {
    let words = |rng: &mut Rng| rng.pick(&WORDS).unwrap_or_default().to_string();
    let name = |rng: &mut Rng, name: String| Name {
        name,
        words: words(rng),
    };
    let records = &draft.records;
    let names = &mut draft.names;
    names.plan = name(rng, "the-plan".to_string());
    for (t, track) in names.tracks.iter_mut().enumerate() {
        *track = name(rng, format!("track-{t}"));
    }
    let mut own = vec![0; records.tracks.len()];
    for (state, called) in records.states.iter().zip(&mut names.states) {
        let number = &mut own[usize::from(state.track)];
        *called = name(rng, format!("état{number}"));
        *number += if rng.chance(20) { 7 } else { 1 };
    }
    let events: Vec<u16> = records.steps.iter().map(|step| step.event).collect();
    let codes: Vec<u16> = records.steps.iter().map(|step| step.code).collect();
    let societies: Vec<u16> = records.grants.iter().map(|grant| grant.society).collect();
    let tables = [
        (&mut names.events, events),
        (&mut names.retractions, codes),
        (&mut names.societies, societies),
    ];
    for (table, numbers) in tables {
        for number in numbers {
            if rng.chance(80) {
                let called = name(rng, format!("n{number}"));
                table.names.insert(number, called);
            }
        }
    }
}

#[test]
fn names_and_words_are_read_back() {
    let mut dotted = 0;
    for index in 0..3_000 {
        let mut draft = draft_of(&any_plan(index));
        rename(&mut Rng::for_case(SEED, 3, index), &mut draft);
        let text = assert_read_back(&draft);
        dotted += usize::from(text.contains(" in track-"));
    }
    assert!(dotted > 500, "{dotted}");
}

/// Names for bytes out of an older text: the result is written and read back, and
/// with the same records all names are kept.
#[test]
fn names_from_an_older_text() {
    let (mut kept, mut mixed) = (0, 0);
    for index in 0..2_000 {
        let mut rng = Rng::for_case(SEED, 4, index);
        let mut old = draft_of(&any_plan(index));
        rename(&mut rng, &mut old);
        let same = plan_text::names_from(old.records.clone(), &old);
        assert_eq!((&same.names, &same.records), (&old.names, &old.records));
        if rng.chance(50) {
            // Old names that look like those of numbers.
            for (s, name) in old.names.states.iter_mut().enumerate() {
                name.name = format!("s{}", s + 1);
            }
        }
        let mut records = old.records.clone();
        rng.shuffle(&mut records.states);
        let new = plan_text::names_from(records, &old);
        assert_read_back(&new);
        assert_eq!(new.names.tracks, old.names.tracks);
        let same = |s: &usize| new.names.states[*s] == old.names.states[*s];
        let count = (0..new.names.states.len()).filter(same).count();
        kept += usize::from(count == new.names.states.len());
        mixed += usize::from(count > 0 && count < new.names.states.len());
        let other = draft_of(&any_plan(index + 1));
        let new = plan_text::names_from(other.records, &old);
        assert_read_back(&new);
        assert_eq!(new.names.events, old.names.events);
    }
    assert!(kept > 50 && mixed > 500, "{kept} {mixed}");
}
