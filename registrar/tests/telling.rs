//! Runs told: the first column is what the program prints, and the meanings
//! name what changed.

#[allow(dead_code)]
mod common;

use common::{brothers, first_column, BROTHERS};
use registrar::draft::Draft;
use registrar::journal::{self, Call};
use registrar::look;
use registrar::records::Records;
use registrar::run::{fits, Answer, Done, Run};
use registrar::standing::{self, Mode, Standing};
use registrar::tell::{self, Told};
use retraction::{Entry, Limit, Plan, Refusal};
use std::collections::BTreeSet;
use std::fs::{self, File};
use std::path::{Path, PathBuf};
use std::process::Command;
use testing::generate::journals::{self, Case};
use testing::generate::rng::Rng;

/// The program of the check.
fn unwind() -> PathBuf {
    let path = Path::new(env!("CARGO_MANIFEST_DIR")).join("../target/bin/unwind");
    assert!(
        path.exists(),
        "there is no target/bin/unwind: run samples/build"
    );
    path.canonicalize().expect("a path")
}

/// A folder of this test's own.
fn folder(name: &str) -> PathBuf {
    let name = format!("registrar-telling-{}-{name}", std::process::id());
    let path = std::env::temp_dir().join(name);
    fs::create_dir_all(&path).expect("a folder");
    path
}

/// What the program prints of a case.
fn printed(unwind: &Path, folder: &Path, case: &Case) -> String {
    fs::write(folder.join("plan.bin"), &case.plan).expect("a plan file");
    let journal = folder.join("journal.bin");
    fs::write(&journal, &case.journal).expect("a journal");
    let mut command = Command::new(unwind);
    command.current_dir(folder);
    command.stdin(File::open(journal).expect("a journal"));
    let output = command.output().expect("the program runs");
    String::from_utf8(output.stdout).expect("text")
}

/// The refusal of a case's files, or its plan.
fn accepted(case: &Case) -> Result<Plan, Refusal> {
    fits(&case.plan)?;
    fits(&case.journal)?;
    Plan::read(case.plan.clone())
}

/// The case told at a limit, with its calls numbered as if each stood on a line, and
/// the run if there is one.
fn told_of(case: &Case, limit: Limit, look: impl Fn(&Draft, &Run<'_>, &[Told])) -> Vec<Told> {
    let plan = match accepted(case) {
        Ok(plan) => plan,
        Err(refusal) => return vec![tell::refused(refusal)],
    };
    let records = Records::decode(&case.plan).expect("an accepted plan");
    let draft = Draft::of_records(records);
    let (calls, broken) = journal::decode(&case.journal);
    let run = Run::of(&plan, limit, &calls, broken);
    let lines: Vec<usize> = (0..calls.len()).map(|n| n + 2).collect();
    let told = tell::tell(&draft, &run, &lines);
    look(&draft, &run, &told);
    told
}

/// Whether a text has a word by itself.
fn has_word(text: &str, word: &str) -> bool {
    let mut words = text.split(|c: char| !c.is_alphanumeric());
    words.any(|w| w == word)
}

/// How often a text has another.
fn times(text: &str, part: &str) -> u16 {
    text.matches(part).count() as u16
}

/// A track before and after a call, where it is awake both times.
fn awake_throughout(done: &Done) -> impl Iterator<Item = (usize, &Standing, &Standing)> {
    let pairs = done.before.iter().zip(&done.after).enumerate();
    pairs.filter_map(|(t, (before, after))| Some((t, before.as_ref()?, after.as_ref()?)))
}

/// What an event gave to tracks is told, and as what.
fn gifts_fit(draft: &Draft, done: &Done, meaning: &str) {
    for (track, before, after) in awake_throughout(done) {
        if after.entries.len() <= before.entries.len() {
            continue;
        }
        let newest = after.entries.last().expect("it holds one");
        let waited = !look::open_scope(&draft.records, &done.before, track).is_empty();
        let said = if waited {
            format!("t{track} holds retraction {} for it", newest.code)
        } else {
            format!(" and holds retraction {}", newest.code)
        };
        assert!(meaning.contains(&said), "{said}: {meaning}");
    }
}

/// How many entries were held when all ended: those from before, less the one
/// that was fired, and those of the last steps.
fn held_at_the_end(draft: &Draft, done: &Done) -> usize {
    let held = standing::held(&done.before);
    match (done.call, done.answer) {
        (_, Answer::Fired { .. }) => held - 1,
        (Call::Event { event, .. }, Answer::Moved(_)) => {
            let forward = done.before.iter().flatten();
            let forward = forward.filter(|standing| standing.mode == Mode::Forward);
            let step = |s: &Standing| look::step_on(&draft.records, s.state, event);
            let steps = forward.filter_map(step);
            held + steps.filter(|&x| draft.records.steps[x].code != 0).count()
        }
        _ => held,
    }
}

/// What must be so of the meaning of a call.
fn meaning_fits(draft: &Draft, done: &Done, told: &Told) {
    let meaning = &told.meaning;
    if let Some(dropped) = meaning.split("dropped unfired: ").nth(1) {
        let dropped = usize::from(times(dropped, "retraction "));
        assert_eq!(dropped, held_at_the_end(draft, done), "{told:?}");
    }
    let changed = (0..done.before.len()).filter(|&t| done.before[t] != done.after[t]);
    if !done.over {
        for track in changed {
            assert!(
                has_word(meaning, &format!("t{track}")),
                "t{track}: {told:?}"
            );
        }
    }
    match done.answer {
        Answer::Moved(figures) => {
            let moved = times(meaning, " goes from ") + times(meaning, " takes a step and ");
            assert_eq!(moved, figures.moved, "{told:?}");
            let closed = times(meaning, " complete in ");
            assert_eq!(closed, figures.closed, "{told:?}");
            gifts_fit(draft, done, meaning);
        }
        Answer::Fired { entry, .. } => {
            let code = format!("retraction {}", entry.code);
            assert!(meaning.contains(&code), "{told:?}");
        }
        Answer::Refused(refusal) => {
            let number = format!("refused as {refusal}. ");
            assert!(meaning.contains(&number), "{told:?}");
            let why = meaning.split(&number).nth(1);
            assert!(why.map_or(false, |why| why.len() > 5), "{told:?}");
        }
        Answer::Turned(turned) => {
            turning_fits(turned, meaning);
            due_fits(done, meaning);
        }
    }
    assert_eq!(done.over && !done.before.iter().all(Option::is_none), {
        meaning.contains("all has ended") && !meaning.contains("Here all has ended before")
    });
}

fn turning_fits(turned: u16, meaning: &str) {
    let turning = meaning.split(": ").nth(1).expect("what turned");
    let turning = turning.split(" turn").next().expect("what turned");
    let named = turning.matches('t').count();
    let named = if turning.starts_with("nothing") {
        0
    } else {
        named
    };
    assert_eq!(named, usize::from(turned), "{meaning}");
}

/// Letters are counted exactly where no track is forward and none deviates.
fn due_fits(done: &Done, meaning: &str) {
    let awake = || done.after.iter().flatten();
    let forward = awake().any(|standing| standing.mode == Mode::Forward);
    let entries: Vec<Entry> = awake().flat_map(|s| s.entries.clone()).collect();
    let deviates = entries.iter().any(|entry| entry.deviation.is_some());
    let counted = !(forward || deviates || done.over);
    let count = match entries.len() {
        0 => "no letter is due".to_string(),
        1 => "1 letter is due".to_string(),
        n => format!("{n} letters are due"),
    };
    assert_eq!(meaning.contains(" due"), counted, "{meaning}");
    assert!(!counted || meaning.contains(&count), "{meaning}");
}

/// Which sorts of lines there were.
#[derive(Default)]
struct Seen {
    letters: [usize; 6],
    broken: usize,
    refused_plans: usize,
    refusals: BTreeSet<String>,
    due: usize,
}

fn one_case(unwind: &Path, folder: &Path, index: u64, seen: &mut Seen) {
    let mut rng = Rng::for_case(7, 3, index);
    let case = journals::case(&mut rng, 32);
    let told = told_of(&case, Limit::Main, |draft, run, told| {
        assert_eq!(told.len(), run.lines().len());
        for (place, done) in run.done.iter().enumerate() {
            assert_eq!(told[place + 1].line, Some(place + 2));
            meaning_fits(draft, done, &told[place + 1]);
            if place + 1 == run.done.len() {
                let alone = tell::told(draft, run, place);
                assert_eq!(alone.meaning, told[place + 1].meaning);
            }
        }
    });
    let text = tell::text(&told);
    let wanted = printed(unwind, folder, &case);
    assert_eq!(first_column(&text), wanted, "case {index}");
    for one in &told {
        assert!(!one.meaning.is_empty(), "{one:?}");
        assert!(one.meaning.ends_with('.'), "{one:?}");
        for odd in ["  ", "\n", "..", ": .", "; .", ": ;", "; ;"] {
            assert!(!one.meaning.contains(odd), "{one:?}");
        }
        let letter = "PESFRH"
            .find(&one.printed[..1])
            .expect("a line of unwind's");
        seen.letters[letter] += 1;
        seen.due += usize::from(one.meaning.contains(" due"));
        seen.broken += usize::from(one.printed == "R 23");
        seen.refusals
            .extend(one.printed.strip_prefix("R ").map(String::from));
    }
    seen.refused_plans += usize::from(told.len() == 1);
}

#[test]
fn the_first_column_is_what_the_program_prints() {
    let unwind = &unwind();
    let half = |part: u64| {
        let folder = folder(&part.to_string());
        let mut seen = Seen::default();
        for index in (0..6_000).filter(|index| index % 2 == part) {
            one_case(unwind, &folder, index, &mut seen);
        }
        fs::remove_dir_all(folder).expect("the folder goes");
        seen
    };
    let seen = std::thread::scope(|scope| {
        let other = scope.spawn(|| half(1));
        [half(0), other.join().expect("no fault")]
    });
    for seen in seen {
        assert!(
            seen.letters.iter().all(|&n| n > 1_000),
            "{:?}",
            seen.letters
        );
        for number in ["1", "19", "20", "21", "22", "23", "25", "26", "27", "28"] {
            assert!(seen.refusals.contains(number), "{:?}", seen.refusals);
        }
        assert!(seen.broken > 200 && seen.refused_plans > 100 && seen.due > 500);
    }
}

/// No program keeps to the reading rooms' limit. The first column is then what the
/// second one's calls print at it.
#[test]
fn the_first_column_at_the_reading_rooms_limit() {
    let (mut full, mut otherwise) = (0, 0);
    for index in 0..6_000 {
        let mut rng = Rng::for_case(7, 6, index);
        let case = journals::case(&mut rng, 32);
        let told = told_of(&case, Limit::ReadingRoom, |draft, run, told| {
            for (done, told) in run.done.iter().zip(&told[1..]) {
                meaning_fits(draft, done, told);
            }
        });
        let printed = |limit| second::journal::unwind_at(limit, &case.plan, &case.journal);
        let [main, rooms] = second::limit::Limit::SETTINGS.map(printed);
        let wanted = String::from_utf8_lossy(&rooms);
        assert_eq!(first_column(&tell::text(&told)), wanted, "case {index}");
        full += usize::from(wanted.contains("\nR 21\n"));
        otherwise += usize::from(main != rooms);
    }
    assert!(full > 300 && otherwise > 300, "{full}, {otherwise}");
}

/// The meanings of the brothers' run.
fn brothers_told(calls: &[Call]) -> Vec<Told> {
    let plan = Plan::read(BROTHERS).expect("an accepted plan");
    let run = Run::of(&plan, Limit::Main, calls, None);
    tell::tell(&brothers(), &run, &[])
}

#[test]
fn brothers_and_sisters() {
    let journal = include_bytes!("../../samples/brothers_and_sisters/journal.bin");
    let told = brothers_told(&journal::decode(journal).0);
    let text = tell::text(&told);
    let output = include_str!("../../samples/brothers_and_sisters/output");
    assert_eq!(first_column(&text), output);
    let meanings: Vec<&str> = told.iter().map(|one| one.meaning.as_str()).collect();
    for (place, part) in [
        (1, "The banns are read: link goes from asked to under-way and holds Withdraw the banns (101); elder starts in papers, "),
        (3, "film-clara and baptism-anders are complete in papers of elder: Call Clara's film back (131) and Strike the check of Anders's baptism (132) are dropped, and elder holds Send Anders's and Clara's papers back (139) for it."),
        (6, "The link is filed: nothing moves; link stays, for it waits for elder and younger"),
        (7, "The desk that keeps the link withdraws: link, elder, younger, film-dora and baptism-bengt turn round; 4 letters are due."),
        (8, "Here link waits for elder and younger."),
        (9, "elder takes back: Strike the entry of Anders and Clara (130); 3 letters are left."),
        (13, "Here nothing is left to take back."),
        (14, "All is taken back; 4 letters went out."),
    ] {
        assert!(meanings[place].contains(part), "{place}: {}", meanings[place]);
    }
}
