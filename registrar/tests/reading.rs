//! What a text says: the records and names that its lines become, and texts of
//! words thrown together.

use registrar::draft::Name;
use registrar::journal::Call;
use registrar::records::{Grant, State, Step, Track, Window};
use registrar::{journal_text, plan_text};
use retraction::Limit;
use testing::generate::rng::Rng;

const PLAN: &str = "\
\u{feff}# Names are used above the lines that give them.
track 1 film \"A \"\"film\"\" # of Clara's\"  in link.open   # hosted
  state 3 shelf
    on asked go 0 undo cancel then film.gone step 2 from 1900-03-01 to 100 window 1
\tstate gone\tfinal
    on 7 go link.done undo 0 then 65535

plan p
track link
  state open when complete undo 90
    on asked go done undo cancel then open from -1 to +1
  right 1 desk fire move
  state done final when complete undo cancel
  right 8

event 1 asked#no blank is needed before a remark
retract 9 cancel \"\"
society 65535 desk \"The desk\"
";

fn name(name: &str, words: &str) -> Name {
    Name {
        name: name.to_string(),
        words: words.to_string(),
    }
}

#[test]
fn every_sort_of_line() {
    let draft = plan_text::read(PLAN).expect("a plan");
    let records = &draft.records;
    let tracks = [Track { host: None }, Track { host: Some(1) }];
    assert_eq!(records.tracks, tracks);
    let state = |track, last, replacement| State {
        track,
        last,
        replacement,
    };
    let states = [
        state(1, 1, 0),
        state(0, 0, 90),
        state(0, 1, 9),
        state(1, 0, 0),
    ];
    assert_eq!(records.states, states);
    let step = |source, event, code, deviation, destination| Step {
        source,
        event,
        code,
        deviation,
        destination,
    };
    let steps = [
        step(0, 7, 0, None, 2),
        step(1, 1, 9, Some(1), 2),
        step(3, 1, 9, Some(0), 0),
    ];
    assert_eq!(records.steps, steps);
    let window = |step, first, last| Window { step, first, last };
    assert_eq!(records.windows, [window(1, -1, 1), window(2, 59, 100)]);
    let grant = |society, sum| Grant {
        society,
        root: 0,
        sum,
    };
    assert_eq!(records.grants, [grant(8, 0), grant(65535, 5)]);

    let names = &draft.names;
    assert_eq!(names.plan, name("p", ""));
    let film = name("film", "A \"film\" # of Clara's");
    assert_eq!(names.tracks, [name("link", ""), film]);
    let states = ["gone", "open", "done", "shelf"].map(|state| name(state, ""));
    assert_eq!(names.states, states);
    assert_eq!(names.events.number("asked"), Some(1));
    assert_eq!(names.retractions.names[&9], name("cancel", ""));
    assert_eq!(names.societies.said(65535), "The desk");

    let lines = &draft.lines;
    assert_eq!(lines.tracks, [9, 2]);
    assert_eq!(lines.states, [5, 10, 13, 3]);
    assert_eq!(lines.steps, [6, 11, 4]);
    assert_eq!(lines.windows, [11, 4]);
    assert_eq!(lines.grants, [14, 12]);
}

#[test]
fn its_text_in_columns() {
    let draft = plan_text::read(PLAN).expect("a plan");
    let text = "\
plan p

society 65535 desk  \"The desk\"

event       1 asked

retract     9 cancel

track link
  right 8
  right desk move fire
  state 1 open  when complete undo 90
    on asked  go done       undo cancel then open  step 1  from 1899-12-31 to 1900-01-02
  state 2 done  final when complete undo cancel

track film \"A \"\"film\"\" # of Clara's\" in open
  state 0 gone  final
    on 7      go link.done                         step 0
  state 3 shelf
    on asked  go gone       undo cancel then gone  step 2  from 1900-03-01 to 1900-04-11
";
    assert_eq!(plan_text::write(&draft), text);
}

#[test]
fn every_sort_of_call() {
    let draft = plan_text::read(PLAN).expect("a plan");
    let text = "\
# The day and the society hold on.

journal of p # the plan
on 1900-03-01 as desk event asked
event 0
as 4
  take back film
  take back 99   on
withdraw
on 7
on 8 take back next
";
    let faults = journal_text::read(text, &draft).expect_err("a word too many");
    assert_eq!((faults.len(), faults[0].line), (1, 8));
    let text = text.replace("99   on", "99");
    let journal = journal_text::read(&text, &draft).expect("a journal");
    let event = |event| Call::Event {
        event,
        day: 59,
        society: 65535,
    };
    let fire = |track| Call::Fire { track, society: 4 };
    let (signal, next) = (Call::Signal { society: 4 }, Call::FireLowest { society: 4 });
    let calls = [event(1), event(0), fire(1), fire(99), signal, next];
    assert_eq!(journal.calls, calls);
    assert_eq!(journal.lines, [4, 5, 7, 8, 9, 11]);
    assert_eq!((journal.day, journal.society), (Some(8), Some(4)));
    let written = "\
journal of p
on 1900-03-01 as desk
  event asked
  event 0
as 4
  take back film
  take back 99
  withdraw
  take back next
";
    assert_eq!(journal_text::write(&calls, Limit::Main, &draft), written);
}

/// A journal need not name its plan, and a plan need not have a name.
#[test]
fn journals_of_plans_without_a_name() {
    let draft = plan_text::read("track a\nstate x").expect("a plan");
    for text in ["journal", "# nothing\njournal of anything"] {
        let journal = journal_text::read(text, &draft).expect("a journal");
        assert_eq!(journal, journal_text::Journal::default());
    }
    let written = |limit| journal_text::write(&[], limit, &draft);
    assert_eq!(written(Limit::Main), "journal\n");
    assert_eq!(written(Limit::ReadingRoom), "journal at limit 8\n");
}

/// The limit is the first line's, 32 where it says none, and a plan may be called as
/// the words are that tell it.
#[test]
fn the_limit_of_a_journal() {
    let plan = |name: &str| format!("plan {name}\ntrack a\nstate x");
    for name in ["p", "at", "limit", "of", "journal"] {
        let draft = plan_text::read(&plan(name)).expect("a plan");
        for (end, limit) in [
            ("", Limit::Main),
            (" at limit 32", Limit::Main),
            (" at limit 8", Limit::ReadingRoom),
            ("\tat  limit 8 # the room's", Limit::ReadingRoom),
        ] {
            for text in [format!("journal{end}"), format!("journal of {name}{end}")] {
                let text = format!("# at limit 9\n\n{text}\nas 1 withdraw");
                let journal = journal_text::read(&text, &draft).expect(&text);
                assert_eq!((journal.limit, journal.calls.len()), (limit, 1), "{text}");
                let again = journal_text::write(&journal.calls, limit, &draft);
                assert_eq!(again.contains("limit 8"), limit == Limit::ReadingRoom);
                let again = journal_text::read(&again, &draft).expect(&text);
                assert_eq!((again.limit, &again.calls), (limit, &journal.calls));
            }
        }
    }
}

/// The words that texts are thrown together from, the likely ones several times.
const VOCABULARY: [&str; 44] = [
    "plan",
    "event",
    "retract",
    "society",
    "track",
    "track",
    "right",
    "state",
    "state",
    "on",
    "on",
    "go",
    "go",
    "undo",
    "then",
    "step",
    "from",
    "to",
    "window",
    "in",
    "final",
    "when",
    "complete",
    "move",
    "signal",
    "fire",
    "a",
    "b",
    "x",
    "y",
    "a.x",
    "b.y",
    "0",
    "1",
    "2",
    "65535",
    "70000",
    "-1",
    "1900-03-01",
    "\"words\"",
    "\"",
    "#",
    "journal",
    "next",
];

/// A line that is mostly as the grammar has it.
fn any_line(rng: &mut Rng) -> String {
    let forms = [
        "track a",
        "track b",
        "track a in x",
        "track b in a.x",
        "track 0 b in 1",
        "state x",
        "state y",
        "state x final",
        "state 1 y final when complete undo 9",
        "state 0 x",
        "on 1 go x",
        "on 2 go y undo 9",
        "on 1 go x undo 0 then y",
        "on 3 go 0 step 0",
        "on 1 go b.x from 5 to 1900-01-01",
        "on 4 go x from 0 to 9 window 0",
        "on e go 65535",
        "right 1 move",
        "right d move fire",
        "right 0 1 signal",
        "right 5",
        "event 1 e",
        "society 1 d \"the desk\"",
        "retract 0 r",
        "plan p",
    ];
    let form = rng.pick(&forms).unwrap_or_default();
    let mut words: Vec<&str> = form.split(' ').collect();
    if rng.chance(12) {
        let at = rng.below(words.len() + 1);
        words.insert(at, rng.pick(&VOCABULARY).unwrap_or_default());
    }
    if rng.chance(4) {
        words.remove(rng.below(words.len()));
    }
    if rng.chance(3) {
        words = (0..rng.below(9))
            .filter_map(|_| rng.pick(&VOCABULARY))
            .collect();
    }
    words.join(" ")
}

/// Whatever is thrown together: reading does not panic, a fault has a line of the
/// text, and what is read, accepted or not, is written and read back.
#[test]
fn texts_thrown_together() {
    let (mut read, mut faulty) = (0, 0);
    for index in 0..60_000 {
        let mut rng = Rng::for_case(1902, 1, index);
        let mut lines: Vec<String> = (0..rng.between(1, 6)).map(|_| any_line(&mut rng)).collect();
        if rng.chance(60) {
            let above = ["event 1 e", "society 1 d", "track b", "state x", "state y"];
            lines.splice(0..0, above.map(str::to_string));
        }
        let text = lines.join("\n");
        match plan_text::read(&text) {
            Err(faults) => {
                faulty += 1;
                assert!(!faults.is_empty() && faults.len() <= plan_text::MOST_FAULTS);
                assert!(faults
                    .iter()
                    .all(|fault| (1..=lines.len()).contains(&fault.line)));
            }
            Ok(draft) => {
                read += 1;
                let again = plan_text::read(&plan_text::write(&draft)).expect(&text);
                assert_eq!(again.records, draft.records, "{text}");
                assert_eq!(again.names, draft.names, "{text}");
            }
        }
    }
    assert!(read > 5_000 && faulty > 10_000, "{read} {faulty}");
}
