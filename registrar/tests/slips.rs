//! Slips in the samples' texts: a line left out or written twice, a letter dropped,
//! two exchanged, a word left out. Whatever comes of it, reading does not panic,
//! every fault and every refused plan is told with a line of the text, and what is
//! read is written and read back.
//!
//! Refusals that name no record would have no line: no slip of a sample comes to
//! one, which is asserted.

#[allow(dead_code)]
mod common;

use registrar::draft::Draft;
use registrar::fault::Fault;
use registrar::{journal_text, place, plan_text};
use retraction::Plan;
use std::collections::BTreeMap;
use std::fs;

/// The line with one slip in it, in all ways.
fn slips_of(line: &str) -> Vec<String> {
    let chars: Vec<char> = line.chars().collect();
    let mut slips = Vec::new();
    for at in 0..chars.len() {
        let mut dropped = chars.clone();
        dropped.remove(at);
        slips.push(dropped);
        if at > 0 {
            let mut exchanged = chars.clone();
            exchanged.swap(at - 1, at);
            slips.push(exchanged);
        }
    }
    let mut slips: Vec<String> = slips.iter().map(|slip| slip.iter().collect()).collect();
    let words: Vec<&str> = line.split_whitespace().collect();
    for at in 0..words.len() {
        let mut words = words.clone();
        words.remove(at);
        slips.push(words.join(" "));
    }
    slips
}

/// The text with one slip in it, in all ways.
fn slips(text: &str) -> Vec<String> {
    let lines: Vec<&str> = text.lines().collect();
    let mut texts = Vec::new();
    let mut put = |at: usize, instead: &[&str]| {
        let parts = [&lines[..at], instead, &lines[at + 1..]];
        texts.push(parts.concat().join("\n"));
    };
    for (at, line) in lines.iter().enumerate() {
        put(at, &[]);
        put(at, &[line, line]);
        for slip in slips_of(line) {
            put(at, &[&slip]);
        }
    }
    texts
}

fn assert_lines(faults: &[Fault], text: &str) {
    assert!(!faults.is_empty());
    let lines: Vec<usize> = faults.iter().map(|fault| fault.line).collect();
    assert!(lines.windows(2).all(|two| two[0] <= two[1]), "{faults:?}");
    for fault in faults {
        let line = text.lines().nth(fault.line.wrapping_sub(1));
        let line = line.unwrap_or_else(|| panic!("{fault:?}\n{text}"));
        let (start, count) = fault.mark.expect("a mark");
        assert!(start + count <= line.chars().count() + 1, "{fault:?}");
        assert!(!fault.what.is_empty());
    }
}

/// How a text came out: accepted, faulty, or refused under a number.
#[derive(Clone, Copy, Debug, PartialEq, Eq, PartialOrd, Ord)]
enum Outcome {
    Good,
    Faulty,
    Refused(u16),
}

fn plan_outcome(text: &str) -> Outcome {
    let draft = match plan_text::read(text) {
        Ok(draft) => draft,
        Err(faults) => {
            assert_lines(&faults, text);
            return Outcome::Faulty;
        }
    };
    let again = plan_text::read(&plan_text::write(&draft)).expect(text);
    assert_eq!(
        (&again.names, &again.records),
        (&draft.names, &draft.records)
    );
    let refusal = match Plan::read(draft.records.encode()) {
        Ok(_) => return Outcome::Good,
        Err(refusal) => refusal,
    };
    let place = place::of(refusal, &draft.records.encode(), Some(&draft));
    let line = place
        .line
        .unwrap_or_else(|| panic!("{refusal}, no line\n{text}"));
    assert!(text.lines().nth(line - 1).is_some(), "{refusal}: {line}");
    Outcome::Refused(refusal.number())
}

fn journal_outcome(text: &str, draft: &Draft) -> Outcome {
    match journal_text::read(text, draft) {
        Ok(journal) => {
            let lines = text.lines().count();
            assert!(journal.lines.iter().all(|&line| line <= lines));
            let again = journal_text::write(&journal.calls, journal.limit, draft);
            let again = journal_text::read(&again, draft).expect(text);
            assert_eq!(again.calls, journal.calls);
            assert_eq!(again.limit, journal.limit);
            Outcome::Good
        }
        Err(faults) => {
            assert_lines(&faults, text);
            Outcome::Faulty
        }
    }
}

#[test]
fn every_slip_is_told_with_a_line() {
    let mut plans: BTreeMap<Outcome, usize> = BTreeMap::new();
    let mut journals: BTreeMap<Outcome, usize> = BTreeMap::new();
    for sample in common::samples() {
        let text = fs::read_to_string(sample.file("plan.txt")).expect("a plan");
        let draft = plan_text::read(&text).expect("a plan");
        assert_eq!(plan_outcome(&text), Outcome::Good);
        for slip in slips(&text) {
            *plans.entry(plan_outcome(&slip)).or_default() += 1;
        }
        for journal in &sample.journals {
            let path = sample.file(&format!("{journal}.txt"));
            let text = fs::read_to_string(path).expect("a journal");
            assert_eq!(journal_outcome(&text, &draft), Outcome::Good);
            for slip in slips(&text) {
                *journals.entry(journal_outcome(&slip, &draft)).or_default() += 1;
            }
        }
    }
    assert!(plans[&Outcome::Faulty] > 5_000, "{plans:?}");
    assert!(plans[&Outcome::Good] > 1_000, "{plans:?}");
    let refused = plans.keys().filter(|o| matches!(o, Outcome::Refused(_)));
    assert!(refused.count() >= 4, "{plans:?}");
    assert!(journals[&Outcome::Faulty] > 1_000, "{journals:?}");
}
