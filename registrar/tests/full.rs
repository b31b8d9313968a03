//! Tracks that are full, at either limit: where an event is refused as 21, those are
//! named that it would give an entry.

use registrar::draft::Draft;
use registrar::journal::{self, Call};
use registrar::records::Records;
use registrar::run::{self, Answer, Done, Run};
use registrar::{journal_text, plan_text, tell};
use retraction::{Ledger, Limit, Plan, Refusal, LEADING_WORDS};
use testing::generate::rng::Rng;
use testing::generate::{journals, plans};

/// The ledger's words with the newest entries of these tracks taken out.
fn with_room(ledger: &Ledger<'_>, tracks: &[u16]) -> Vec<u16> {
    let mut words = ledger.words().to_vec();
    for &track in tracks {
        let at = LEADING_WORDS + ledger.limit().track_words() * usize::from(track);
        let held = usize::from(words[at + 2]);
        words[at + 2] -= 1;
        words[at + 1 + 2 * held..at + 3 + 2 * held].fill(0);
    }
    words
}

/// The tracks that hold as many as the limit by a ledger's words.
fn full_tracks(ledger: &Ledger<'_>) -> Vec<u16> {
    let tracks = 0..ledger.plan().counts().tracks;
    let most = usize::from(ledger.limit().entries());
    tracks
        .filter(|&t| ledger.entries(t).count() == most)
        .collect()
}

/// Where the event is refused as 21, it is not once the tracks named have room,
/// and it is as long as one of them has none.
fn full_fits(draft: &Draft, ledger: &Ledger<'_>, done: &Done, run: &Run<'_>, place: usize) {
    let (event, day, society) = match done.call {
        Call::Event {
            event,
            day,
            society,
        } => (event, day, society),
        _ => panic!("an event"),
    };
    let told = tell::told(draft, run, place);
    let full = full_tracks(ledger);
    let why = told.meaning.split(". Here ").nth(1).expect("why");
    let words = why.split(|c: char| !c.is_alphanumeric());
    let named = words.filter_map(|word| word.strip_prefix('t')?.parse().ok());
    let named: Vec<u16> = named.collect();
    let refused = |room: &[u16]| {
        let words = with_room(ledger, room);
        let ledger = ledger.plan().ledger(words, ledger.limit());
        let mut ledger = ledger.expect("a sound ledger");
        ledger.event(event, day, society) == Err(Refusal::Full)
    };
    assert!(!refused(&named), "{told:?}");
    for &one in &named {
        let others: Vec<u16> = full.iter().copied().filter(|&t| t != one).collect();
        assert!(refused(&others), "{one}: {told:?}");
    }
}

#[test]
fn the_tracks_named_as_full_are_those() {
    for (limit, least) in [(Limit::Main, 100), (Limit::ReadingRoom, 1_000)] {
        let seen = full_seen(limit);
        assert!(seen > least, "{limit:?}: {seen}");
    }
}

/// How often 21 was told at a limit, each time of the right tracks.
fn full_seen(limit: Limit) -> usize {
    let mut seen = 0;
    for index in 0..3_000 {
        let mut rng = Rng::for_case(7, 4, index);
        let bytes = plans::bytes(&mut rng, 6);
        let second = second::plan::read(&bytes).expect("an accepted plan");
        let (calls, _) = journal::decode(&journals::journal(&mut rng, &second));
        let draft = Draft::of_records(Records::decode(&bytes).expect("an accepted plan"));
        let plan = Plan::read(bytes).expect("an accepted plan");
        let run = Run::of(&plan, limit, &calls, None);
        let mut ledger = plan.begin(limit);
        for (place, done) in run.done.iter().enumerate() {
            if done.answer == Answer::Refused(Refusal::Full) {
                full_fits(&draft, &ledger, done, &run, place);
                seen += 1;
            }
            let again = run::make(&mut ledger, done.call);
            assert_eq!(again.answer, done.answer);
        }
    }
    seen
}

/// A run in the reading rooms goes as in the main program until the first 21. Then
/// nothing moves there.
#[test]
fn until_the_limit_a_run_is_the_same() {
    let (mut alike, mut parted) = (0, 0);
    for index in 0..3_000 {
        let mut rng = Rng::for_case(7, 5, index);
        let bytes = plans::bytes(&mut rng, 6);
        let second = second::plan::read(&bytes).expect("an accepted plan");
        let (calls, _) = journal::decode(&journals::journal(&mut rng, &second));
        let plan = Plan::read(bytes).expect("an accepted plan");
        let [main, rooms] = [Limit::Main, Limit::ReadingRoom];
        let [main, rooms] = [main, rooms].map(|limit| Run::of(&plan, limit, &calls, None));
        let full = |done: &Done| done.answer == Answer::Refused(Refusal::Full);
        let first = rooms.done.iter().position(full);
        let same = first.unwrap_or(calls.len());
        assert_eq!(main.done[..same], rooms.done[..same]);
        alike += usize::from(first.is_none());
        if let Some(first) = first {
            let there = &rooms.done[first];
            assert_eq!(there.before, there.after);
            parted += usize::from(main.done[first].answer != there.answer);
        }
    }
    assert!(alike > 1_000 && parted > 100, "{alike}, {parted}");
}

/// Two full tracks, of which an event asks one, or both; or the host of one that
/// it would complete.
#[test]
fn of_several_full_tracks_those_are_named_that_are_asked() {
    let text = "plan p
track a
  right 1 move
  state s
    on 1 go s undo 91
    on 3 go s undo 93
track b
  right 1 move
  state s
    on 2 go s undo 92
    on 3 go s undo 93 from 0 to 9
    on 4 go w undo 94
  state w when complete undo 99
track c in b.w
  state s
    on 5 go e
  state e final";
    let draft = plan_text::read(text).expect("a plan's text");
    let plan = Plan::read(draft.records.encode()).expect("an accepted plan");
    let why = |head: &str, most: usize, journal: &str| {
        let filled = "event 1\n".repeat(most) + &"event 2\n".repeat(most - 1);
        let journal = format!("{head}\non 0 as 1\n{filled}{journal}");
        let read = journal_text::read(&journal, &draft).expect("a journal's text");
        let run = Run::of(&plan, read.limit, &read.calls, None);
        let told = tell::tell(&draft, &run, &read.lines);
        let meaning = &told[read.calls.len()].meaning;
        meaning.split(". Here ").nth(1).unwrap_or("").to_string()
    };
    for (calls, named) in [
        ("event 2\nevent 1", "a holds"),
        ("event 2\nevent 2", "b holds"),
        ("event 2\nevent 3", "a and b hold"),
        ("event 2\non 10 event 3", "a holds"),
        ("event 4\nevent 5", "b holds"),
        ("event 4\nevent 1", "a holds"),
    ] {
        let main = format!("{named} 32 already.");
        assert_eq!(why("journal", 32, calls), main);
        assert_eq!(why("journal at limit 32", 32, calls), main);
        let rooms = format!("{named} 8 already, the reading rooms' limit.");
        assert_eq!(why("journal of p at limit 8", 8, calls), rooms);
        assert_eq!(why("journal", 8, calls), "");
    }
}

/// The eighth retraction is held in the reading rooms, the ninth refused, and told
/// so.
#[test]
fn the_ninth_in_a_reading_room() {
    let text = "plan p\ntrack a\n  right 1 move signal fire\n  state s\n    on 1 go s undo 91";
    let draft = plan_text::read(text).expect("a plan's text");
    let plan = Plan::read(draft.records.encode()).expect("an accepted plan");
    let journal = format!("journal at limit 8\non 0 as 1\n{}", "event 1\n".repeat(9));
    let read = journal_text::read(&journal, &draft).expect("a journal's text");
    let run = Run::of(&plan, read.limit, &read.calls, None);
    let told = tell::text(&tell::tell(&draft, &run, &read.lines));
    let lines: Vec<&str> = told.lines().collect();
    let begun = "The plan is taken, at the reading rooms' limit of 8 entries for each track: 1 track, 1 state and 1 step; a starts in s.";
    assert_eq!(lines[0], format!("{:21}{begun}", "PLAN 1 1 1"));
    let eighth =
        "event 1: a takes a step and is in s again and holds retraction 91, its newest of 8.";
    assert_eq!(lines[8], format!("{:17}10  {eighth}", "E 1 1 0"));
    let ninth = format!(
        "\"event 1\" is refused as {}. Here a holds 8 already, the reading rooms' limit.",
        Refusal::Full
    );
    assert_eq!(lines[9], format!("{:17}11  {ninth}", "R 21"));
    assert!(lines[10].starts_with("H 8 0 "), "{}", lines[10]);
}
