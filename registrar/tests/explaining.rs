//! What `registrar explain` says of texts is so: a text that is refused, and the same
//! mended as it is told.

use registrar::explain::explain;
use registrar::run::{Answer, Run};
use registrar::{journal_text, plan_text};
use retraction::{Limit, Plan, Refusal};

/// A plan's text by the proved reader.
fn read(text: &str) -> Result<Plan, Refusal> {
    let draft = plan_text::read(&format!("plan p\n{text}"));
    let draft = draft.unwrap_or_else(|faults| panic!("{text}: {faults:?}"));
    Plan::read(draft.records.encode())
}

#[test]
fn plans() {
    let deep = |tracks: usize| -> String {
        let track = |n: usize| format!("track t{n} in t{}.s\nstate s\n", n - 1);
        "track t0\nstate s\n".to_string() + &(1..tracks).map(track).collect::<String>()
    };
    let many = |tracks: usize| -> String {
        let track = |n: usize| format!("track t{n}\nstate s\n");
        (0..tracks).map(track).collect()
    };
    let (too_deep, deepest) = (deep(9), deep(8));
    let (too_many, most) = (many(33), many(32));
    let cases: [(u16, &str, &str); 13] = [
        (6, &too_many, &most),
        (8, "", "track a\nstate s"),
        (
            10,
            "track a in b.s\nstate s\ntrack b\nstate s",
            "track b\nstate s\ntrack a in b.s\nstate s",
        ),
        (
            11,
            "track a\nstate e final\nstate s",
            "track a\nstate s\nstate e final",
        ),
        (
            12,
            "track a\nstate s when complete undo 9",
            "track a\nstate s when complete undo 9\ntrack b in a.s\nstate s",
        ),
        (
            13,
            "track a\nstate s\non 1 go b.s\ntrack b\nstate s",
            "track a\nstate s\non 1 go s\ntrack b\nstate s",
        ),
        (
            14,
            "track a\nstate s\non 1 go e undo 9 then e\nstate e final",
            "track a\nstate s\non 1 go e undo 9 then s\nstate e final",
        ),
        (
            14,
            "track a\nstate s\ntrack b in a.s\nstate s\non 1 go s undo 9 then s",
            "track a\nstate s\ntrack b in a.s\nstate s\non 1 go s undo 9",
        ),
        (
            15,
            "track a\nstate s\non 1 go s from 0 to 1\non 1 go s from 2 to 3",
            "track a\nstate s\non 1 go s from 0 to 1\non 2 go s from 2 to 3",
        ),
        (16, &too_deep, &deepest),
        (
            25,
            "track a\nstate s\non 1 go s from 1900-03-31 to 1900-03-01",
            "track a\nstate s\non 1 go s from 1900-03-01 to 1900-03-31",
        ),
        (
            27,
            "track a\nstate s\ntrack b in a.s\nright 1 move\nstate s",
            "track a\nright 1 move\nstate s\ntrack b in a.s\nstate s",
        ),
        (
            27,
            "track a\nright 1 move\nright 1 fire\nstate s",
            "track a\nright 1 move fire\nstate s",
        ),
    ];
    for (number, wrong, mended) in cases {
        let refused = read(wrong).expect_err(wrong);
        assert_eq!(refused.number(), number, "{wrong}");
        assert!(read(mended).is_ok(), "{mended}");
    }
}

const PLAN: &str = "plan p
track a
  right 1 move signal fire
  state s
    on 1 go s undo 9
    on 2 go e undo 8
  state e final";

/// The last answer of a journal's text, which begins with this line.
fn last(head: &str, journal: &str) -> Answer {
    let draft = plan_text::read(PLAN).expect("a plan's text");
    let plan = Plan::read(draft.records.encode()).expect("an accepted plan");
    let text = format!("{head}\non 0 as 1\n{journal}");
    let read = journal_text::read(&text, &draft);
    let read = read.unwrap_or_else(|faults| panic!("{journal}: {faults:?}"));
    let run = Run::of(&plan, read.limit, &read.calls, None);
    run.done.last().expect("a call").answer
}

#[test]
fn journals() {
    let full = "event 1\n".repeat(33);
    let not_full = "event 1\n".repeat(32);
    let cases: [(u16, &str, &str); 7] = [
        (19, "event 0", "event 1"),
        (
            26,
            "on 5 event 1\non 4 event 1",
            "on 4 event 1\non 5 event 1",
        ),
        (20, "event 2\nwithdraw", "event 1\nwithdraw"),
        (28, "as 2 withdraw", "as 1 withdraw"),
        (
            28,
            "event 1\nwithdraw\nas 2 take back a",
            "event 1\nwithdraw\nas 1 take back a",
        ),
        (21, &full, &not_full),
        (
            22,
            "event 1\ntake back next",
            "event 1\nwithdraw\ntake back next",
        ),
    ];
    for (number, wrong, mended) in cases {
        let refused = last("journal", wrong);
        let wanted = Refusal::from_number(number).expect("a refusal");
        assert_eq!(refused, Answer::Refused(wanted), "{wrong}");
        let mended_answer = last("journal", mended);
        assert!(!matches!(mended_answer, Answer::Refused(_)), "{mended}");
    }
}

/// A ninth retraction is refused in the reading rooms alone, and an eighth nowhere.
#[test]
fn limits() {
    let full = Answer::Refused(Refusal::Full);
    let times = |times: usize| "event 1\n".repeat(times);
    assert_eq!(last("journal at limit 8", &times(9)), full);
    assert_ne!(last("journal at limit 8", &times(8)), full);
    for head in ["journal", "journal at limit 32"] {
        assert_ne!(last(head, &times(32)), full);
        assert_eq!(last(head, &times(33)), full);
    }
}

/// What is explained of ledgers and of full tracks reads both limits.
#[test]
fn both_limits_are_explained() {
    for (number, parts) in [
        (17, ["67 at the limit of 32", "19 at the reading rooms'"]),
        (18, ["at the limit that is given, 32 or 8", "No word names"]),
        (21, ["32, or 8 in a journal", "journal at limit 8"]),
        (29, ["32 or the reading", "refused as 21"]),
    ] {
        let text = explain(number).expect("a refusal");
        let text = text.split_whitespace().collect::<Vec<_>>().join(" ");
        assert!(parts.iter().all(|part| text.contains(part)), "{text}");
    }
    let words = |limit: Limit| limit.track_words();
    assert_eq!([Limit::Main, Limit::ReadingRoom].map(words), [67, 19]);
}
