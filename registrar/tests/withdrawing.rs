//! Withdrawals foretold: every firing is accepted in the order told, the end is
//! as told, and a number that is called exact is that of the entries held.

#[allow(dead_code)]
mod common;

use common::{brothers, BROTHERS};
use registrar::draft::Draft;
use registrar::journal;
use registrar::look;
use registrar::records::Records;
use registrar::run::Run;
use registrar::standing::{self, Mode};
use registrar::withdraw::{self, withdraw, Withdrawal};
use retraction::{Ledger, Limit, Plan, Refusal};
use testing::generate::rng::Rng;
use testing::generate::{journals, plans, societies};
use testing::samples;

/// Makes the firings in the order told on this ledger.
fn fire_as_told(ledger: &mut Ledger<'_>, told: &Withdrawal) {
    for round in &told.rounds {
        let ready: Vec<u16> = ledger.ready().collect();
        for branch in round {
            assert!(
                ready.contains(&branch.track),
                "a track of the round is ready"
            );
            for &letter in &branch.letters {
                assert_eq!(ledger.fire(branch.track, branch.society), Ok(letter));
            }
            let still: Vec<u16> = ledger.ready().collect();
            assert!(
                !still.contains(&branch.track),
                "a branch is fired to its end"
            );
        }
    }
}

/// Makes them the other way round within each round.
fn fire_backwards(ledger: &mut Ledger<'_>, told: &Withdrawal) {
    for round in &told.rounds {
        for branch in round.iter().rev() {
            for &letter in &branch.letters {
                assert_eq!(ledger.fire(branch.track, branch.society), Ok(letter));
            }
        }
    }
}

/// What must be so of a withdrawal by this society now.
fn fits(draft: &Draft, run: &Run<'_>, society: u16) -> Result<Withdrawal, Refusal> {
    let told = withdraw(draft, run, society)?;
    let mut ledger = run.ledger.clone();
    if !told.already {
        let turned = ledger.signal(society).expect("the signal is accepted");
        assert!(!told.text(draft).starts_with("Already"), "{turned} turned");
    }
    assert_eq!(standing::of(&ledger), told.turned);
    let held = standing::held(&told.turned);
    let mut other_way = ledger.clone();
    fire_as_told(&mut ledger, &told);
    fire_backwards(&mut other_way, &told);
    assert_eq!(ledger, other_way, "any order within a round");
    assert_eq!(standing::of(&ledger), told.end);
    assert_eq!(ledger.is_over(), told.over);
    let ready: Vec<u16> = ledger.ready().collect();
    assert_eq!(ready, sorted(&told.barred), "what is left nobody may fire");
    for &track in &told.barred {
        let tried = societies_of(draft).into_iter();
        let mut answers = tried.map(|society| ledger.clone().fire(track, society));
        assert!(answers.all(|answer| answer == Err(Refusal::NoRight)));
    }
    let text = told.text(draft);
    if text.contains("exactly") {
        assert_eq!(told.letters(), held, "{text}");
        assert!(told.restored, "{text}");
    }
    let spent = |root: usize| match &told.end[root] {
        Some(s) => s.mode == Mode::Undoing && s.entries.is_empty(),
        None => false,
    };
    let closed = |root: usize| look::open_scope(&draft.records, &told.end, root).is_empty();
    let restored = draft
        .records
        .roots()
        .all(|root| spent(root) && closed(root));
    assert_eq!(
        text.contains("the books stand as at the begin"),
        restored,
        "{text}"
    );
    let letters = told.rounds.iter().flatten().map(|b| b.letters.len()).sum();
    assert_eq!(told.letters(), letters);
    assert_eq!(
        told.held,
        letters + told.dropped() + standing::held(&told.end)
    );
    Ok(told)
}

fn sorted(tracks: &[u16]) -> Vec<u16> {
    let mut tracks = tracks.to_vec();
    tracks.sort_unstable();
    tracks
}

fn societies_of(draft: &Draft) -> Vec<u16> {
    draft.records.grants.iter().map(|g| g.society).collect()
}

#[derive(Default, Debug)]
struct Seen {
    refused: usize,
    exact: usize,
    already: usize,
    forward: usize,
    onward: usize,
    barred: usize,
    over: usize,
    rounds: usize,
}

#[test]
fn random_runs() {
    let mut seen = Seen::default();
    for index in 0..12_000 {
        let mut rng = Rng::for_case(11, 5, index);
        let made = if rng.chance(50) {
            plans::linked_records(&mut rng, 8)
        } else {
            plans::records(&mut rng, 32)
        };
        let bytes = made.encode();
        let second = second::plan::read(&bytes).expect("an accepted plan");
        let limit = match index % 4 {
            0 => Limit::ReadingRoom,
            _ => Limit::Main,
        };
        let at = second::limit::Limit(limit.entries());
        let (mut history, _) = journals::history(&mut rng, at, &second);
        history.truncate(rng.between(0, 40));
        let (calls, _) = journal::decode(&samples::journal(&history));
        let plan = Plan::read(bytes.clone()).expect("an accepted plan");
        let draft = Draft::of_records(Records::decode(&bytes).expect("an accepted plan"));
        let run = Run::of(&plan, limit, &calls, None);
        let named = societies::named(&second);
        let society = rng.pick(&named).unwrap_or(1);
        match fits(&draft, &run, society) {
            Ok(told) => {
                let said = told.text(&draft).contains("reading rooms' limit of 8");
                assert_eq!(said, limit == Limit::ReadingRoom);
                note(&mut seen, &told);
            }
            Err(refusal) => {
                let answer = run.ledger.clone().signal(society);
                assert_eq!(answer, Err(refusal));
                seen.refused += 1;
            }
        }
    }
    let counts = [
        seen.refused,
        seen.exact,
        seen.already,
        seen.forward,
        seen.onward,
        seen.barred,
        seen.over,
        seen.rounds,
    ];
    assert!(counts.iter().all(|&count| count > 30), "{seen:?}");
}

fn note(seen: &mut Seen, told: &Withdrawal) {
    let onward = |letter: &retraction::Entry| letter.deviation.is_some();
    let mut letters = told.rounds.iter().flatten().flat_map(|b| &b.letters);
    seen.exact += usize::from(told.is_exact() && told.letters() > 0);
    seen.already += usize::from(told.already);
    seen.forward += usize::from(!told.forward().is_empty());
    seen.onward += usize::from(letters.any(onward));
    seen.barred += usize::from(!told.barred.is_empty());
    seen.over += usize::from(told.over);
    seen.rounds += usize::from(told.rounds.len() > 1);
}

/// The brothers' withdrawal after so many calls of their journal.
fn brothers_after(calls: usize) -> Result<String, Refusal> {
    let journal = include_bytes!("../../samples/brothers_and_sisters/journal.bin");
    let plan = Plan::read(BROTHERS).expect("an accepted plan");
    let calls = &journal::decode(journal).0[..calls];
    let run = Run::of(&plan, Limit::Main, calls, None);
    let draft = brothers();
    Ok(fits(&draft, &run, 1)?.text(&draft))
}

#[test]
fn brothers_and_sisters() {
    let halfway = "\
If the desk that keeps the link withdrew now, 4 letters would go out, exactly:
  round 1, side by side, in any order:
    elder      1. Strike the entry of Anders and Clara (130)
               2. Send Anders's and Clara's papers back (139)
    film-dora  1. Call Dora's film back (141)
  round 2, once elder and younger are done:
    link       1. Withdraw the banns (101)
Nothing is left then: the books stand as at the beginning, if each retraction undoes what it
stands for, steps without one change nothing, and branches leave each other's books alone.
";
    assert_eq!(brothers_after(6).as_deref(), Ok(halfway));
    let begun = "\
If the desk that keeps the link withdrew now, no letter would go out: nothing is held.
Nothing is left then: the books stand as at the beginning, if each retraction undoes what it
stands for, steps without one change nothing, and branches leave each other's books alone.
";
    assert_eq!(brothers_after(0).as_deref(), Ok(begun));
    let withdrawn = brothers_after(9).expect("not over");
    assert!(withdrawn.starts_with("Already withdrawn; 3 letters are still due, exactly:\n"));
    let done = brothers_after(12).expect("not over");
    let wanted = "\
Already withdrawn; no letter is due any more.
Nothing is left: the books stand as at the beginning, if each retraction undoes what it
stands for, steps without one change nothing, and branches leave each other's books alone.
";
    assert_eq!(done, wanted);
}

#[test]
fn refused_withdrawals_in_words() {
    let draft = brothers();
    let over = withdraw::refused(&draft, 1, Refusal::Over);
    let wanted =
        "The withdrawal by the desk that keeps the link is refused as 20: the ledger is over. \
                  All has ended, and nothing can be taken back any more.\n";
    assert_eq!(over, wanted);
    let lacking = withdraw::refused(&draft, 2, Refusal::NoRight);
    assert!(
        lacking.ends_with(" Society 2 has the signal right nowhere.\n"),
        "{lacking}"
    );
}
