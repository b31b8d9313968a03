//! The pictures of plans and runs, checked without a browser: their elements
//! are well-formed, every text stands in its box, no two texts overlap, nothing
//! crosses a text, and everything is there.

#[allow(dead_code)]
mod common;
mod drawn;

use common::samples;
use drawn::{apart, elements, inside, texts, Element, Text};
use registrar::draft::{Draft, Name};
use registrar::picture;
use registrar::picture::svg::Rect;
use registrar::records::{Records, State, Step, Track, Window};
use registrar::run::{Answer, Done, Run};
use registrar::{journal_text, plan_text};
use retraction::Plan;
use std::fs;
use testing::generate::plans;
use testing::samples as made;

/// The texts of a picture stand in their boxes and the boxes in the picture; no
/// two overlap; each rect has a text wholly inside or outside.
fn assert_legible(elements: &[Element], over_texts: &[&str]) -> Vec<Text> {
    let whole = elements[0].rect();
    let texts = texts(elements);
    for (n, text) in texts.iter().enumerate() {
        assert!(inside(text.taken, text.within), "leaves its box: {text:?}");
        assert!(inside(text.within, whole), "leaves the picture: {text:?}");
        for other in &texts[n + 1..] {
            assert!(
                apart(text.taken, other.taken),
                "overlap: {text:?} {other:?}"
            );
        }
    }
    let rects = elements.iter().filter(|e| e.tag == "rect");
    for rect in rects.filter(|e| !over_texts.contains(&e.class())) {
        for text in &texts {
            let box_ = rect.rect();
            let clear = inside(text.taken, box_) || apart(text.taken, box_);
            assert!(clear, "{} crosses {text:?}", rect.class());
        }
    }
    texts
}

/// The straight lines of a path as boxes without breadth; of a loop, the first.
fn lines(path: &Element) -> Option<Rect> {
    let d = path.get("d")?.strip_prefix('M')?;
    let (start, way) = d.split_at(d.find(|c| "HVh".contains(c))?);
    let (x, y) = start.split_once(' ')?;
    let (x, y): (i32, i32) = (x.parse().ok()?, y.parse().ok()?);
    let to = way[1..]
        .split(|c: char| !c.is_ascii_digit() && c != '-')
        .next()?;
    let to: i32 = to.parse().ok()?;
    Some(match &way[..1] {
        "H" => Rect::new(x.min(to), y, (to - x).abs(), 0),
        "h" => Rect::new(x, y, to, 0),
        _ => Rect::new(x, y.min(to), 0, (to - y).abs()),
    })
}

/// Whether a line passes through a box.
fn crosses(line: Rect, text: Rect) -> bool {
    line.x < text.right()
        && line.right() > text.x
        && line.y < text.bottom()
        && line.bottom() > text.y
}

/// How many elements of a class there are outside of the legend.
fn count(elements: &[Element], class: &str) -> usize {
    let in_legend = |e: &&Element| {
        let parent = e.parent.map(|parent| elements[parent].class());
        parent == Some("legend")
    };
    let of_class = elements.iter().filter(|e| e.class() == class);
    of_class.filter(|e| !in_legend(e)).count()
}

fn assert_plan(draft: &Draft) {
    let svg = picture::plan(draft);
    assert_eq!(
        svg,
        picture::plan(draft),
        "another picture of the same plan"
    );
    let elements = elements(&svg);
    let texts = assert_legible(&elements, &[]);
    let uprights = ["upright", "step", "back"];
    for path in elements.iter().filter(|e| uprights.contains(&e.class())) {
        let line = lines(path).expect("a line");
        for text in &texts {
            assert!(!crosses(line, text.taken), "{path:?} crosses {text:?}");
        }
    }
    let records = &draft.records;
    let deviations = records.steps.iter().filter(|x| x.deviation.is_some());
    let deviations = deviations.count();
    assert_eq!(count(&elements, "back"), deviations);
    assert_eq!(count(&elements, "arrow"), records.steps.len() + deviations);
    assert_eq!(count(&elements, "track"), records.tracks.len());
    assert_eq!(count(&elements, "state"), records.states.len());
    let finals = records.states.iter().filter(|state| state.last == 1);
    assert_eq!(count(&elements, "final"), finals.count());
    assert_nested(&elements);
    assert_mentions(draft, &texts);
}

/// Boxes of tracks and states are inside one another or apart.
fn assert_nested(elements: &[Element]) {
    let boxes = elements
        .iter()
        .filter(|e| ["track", "state"].contains(&e.class()));
    let boxes: Vec<Rect> = boxes.map(Element::rect).collect();
    for (n, &one) in boxes.iter().enumerate() {
        for &other in &boxes[n + 1..] {
            assert!(inside(other, one) || apart(one, other), "{one:?} {other:?}");
        }
    }
}

/// Every track, state, event and retraction is written in the picture, each
/// step's as often as there are such steps.
fn assert_mentions(draft: &Draft, texts: &[Text]) {
    let written = |text: &str| texts.iter().filter(|t| t.text == text).count();
    for (n, name) in draft.names.tracks.iter().enumerate() {
        let wanted = format!("{} {}", name.name, name.words);
        assert!(written(wanted.trim()) > 0, "track {n}");
    }
    for name in &draft.names.states {
        assert!(written(&name.name) > 0, "state {}", name.name);
    }
    for step in &draft.records.steps {
        let event = draft.names.events.name(step.event);
        let same = draft.records.steps.iter();
        let same = same.filter(|x| x.event == step.event).count();
        assert!(written(&event) >= same, "event {event}");
        if step.code != 0 {
            let code = draft.names.retractions.name(step.code);
            assert!(written(&code) > 0, "retraction {code}");
        }
        if let Some(state) = step.deviation {
            let then = format!("then {}", draft.state(state));
            assert!(written(&then) > 0, "{then}");
        }
    }
    for state in draft.records.states.iter().filter(|s| s.replacement != 0) {
        let code = draft.names.retractions.name(state.replacement);
        assert!(written(&format!("{code} when complete")) > 0, "{code}");
    }
}

#[test]
fn generated_plans_are_legible() {
    for seed in 0..300 {
        assert_plan(&drawn::generated(seed, 32));
    }
    assert_plan(&drawn::full(240));
}

#[test]
fn plans_by_hand_are_legible() {
    for records in [
        made::sample_records(),
        made::two_links(),
        made::scoped_links(60),
        made::branching_links(),
        made::looping_link(),
        made::three_links(),
        made::brothers(),
        plans::chain(8),
    ] {
        assert_plan(&drawn::draft(&records.encode()));
    }
}

/// Twenty-five steps out of one state: to itself, to the next, over it, several
/// to the same, with terms and deviations.
#[test]
fn many_steps_out_of_one_state() {
    let state = |n: u16| State {
        track: 0,
        last: u16::from(n == 3),
        replacement: 0,
    };
    let step = |n: u16| Step {
        source: 1,
        event: n + 1,
        code: n % 4 * 1000,
        deviation: Some(n % 3).filter(|_| n % 4 == 2),
        destination: n % 4,
    };
    let term = |n: u16| Window {
        step: 2 * n,
        first: 0,
        last: 365,
    };
    let into = Step {
        source: 0,
        event: 1,
        code: 7,
        deviation: None,
        destination: 1,
    };
    let mut records = Records {
        tracks: vec![Track { host: None }],
        states: (0..4).map(state).collect(),
        steps: (0..25).map(step).collect(),
        windows: (0..10).map(term).collect(),
        grants: Vec::new(),
    };
    records.steps.push(into);
    assert_plan(&drawn::draft(&records.encode()));
}

/// Names with what XML must not have plain, with letters of other scripts, and
/// very long ones.
#[test]
fn names_of_every_sort() {
    let mut draft = drawn::draft(&made::branching_links().encode());
    let name = |text: &str, words: &str| Name {
        name: text.to_string(),
        words: words.to_string(),
    };
    draft.names.plan = name("a&b", "a \"plan\" <of> 'sorts'");
    draft.names.tracks[0] = name("<root>", "Kirchspiel Åsele & Umeå");
    draft.names.tracks[2] = name("家族", "\u{1}");
    draft.names.states[0] = name("WWWWWWWWWWWWWWWWWWWWWWWW", "");
    draft.names.states[4] = name("]]>", "--");
    let long = name("mmmmmmmmmm-mmmmmmmmmm-mmmmmmmmmm-mmmmmmmmmm", "");
    draft.names.events.names.insert(1, long);
    let long = "x".repeat(400);
    draft.names.events.names.insert(2, name(&long, &long));
    draft
        .names
        .retractions
        .names
        .insert(60, name("\u{1f600}", ""));
    let svg = picture::plan(&draft);
    let elements = elements(&svg);
    let texts = assert_legible(&elements, &[]);
    let root = "<root> Kirchspiel Åsele & Umeå";
    assert!(texts.iter().any(|text| text.text == root));
    assert!(elements
        .iter()
        .any(|e| e.tag == "title" && e.text.contains(&long)));
    assert!(!svg.contains('\u{1}'));
}

fn assert_timeline(draft: &Draft, run: &Run) {
    let svg = picture::timeline(draft, run);
    assert_eq!(svg, picture::timeline(draft, run));
    let elements = elements(&svg);
    let texts = assert_legible(&elements, &["shade", "ground"]);
    let written = |text: &str| texts.iter().filter(|t| t.text == text).count();
    for done in &run.done {
        let line = done.line();
        let same = run.done.iter().filter(|other| other.line() == line);
        assert!(written(&line) >= same.count(), "{line}");
        for standing in done.after.iter().flatten() {
            assert!(written(&draft.state(standing.state)) > 0);
        }
    }
    for track in &draft.names.tracks {
        assert!(written(&track.name) > 0, "{}", track.name);
    }
    let answers = |wanted: fn(&Answer) -> bool| {
        let wanted = run.done.iter().filter(|done| wanted(&done.answer));
        wanted.count()
    };
    let refused = answers(|answer| matches!(answer, Answer::Refused(_)));
    let broken = usize::from(run.broken.is_some());
    assert_eq!(count(&elements, "refused"), refused + broken);
    assert_eq!(count(&elements, "shade"), refused + broken);
    let fired = answers(|answer| matches!(answer, Answer::Fired { .. }));
    assert_eq!(count(&elements, "fired"), fired);
    let over = run.done.iter().any(|done| done.over);
    assert_eq!(count(&elements, "end"), usize::from(over));
    assert_held(draft, run, &elements);
    for most in [0, 700, 1150] {
        assert_banded(draft, run, most);
    }
}

/// In bands every call is there, the last one of each band twice.
fn assert_banded(draft: &Draft, run: &Run, most: i32) {
    let elements = elements(&picture::banded(draft, run, most));
    assert_legible(&elements, &["shade", "ground"]);
    let calls = 1 + run.done.len() + usize::from(run.broken.is_some());
    let lanes = count(&elements, "lane");
    let bands = lanes / draft.records.tracks.len();
    assert_eq!(count(&elements, "call"), calls + bands - 1);
    let fired = |done: &&Done| matches!(done.answer, Answer::Fired { .. });
    let fired = run.done.iter().filter(fired).count();
    assert_eq!(count(&elements, "fired"), fired);
    if most == 0 {
        assert_eq!(bands, (calls - 1).max(1));
    }
}

/// What is held at the end has a bar with its name.
fn assert_held(draft: &Draft, run: &Run, elements: &[Element]) {
    let last = run.done.last().map_or(&run.begun, |done| &done.after);
    let right = elements.iter().filter(|e| e.class() == "root");
    let right = right.filter_map(lines).map(Rect::right).max().unwrap_or(0);
    let bars = elements.iter().enumerate();
    let bars = bars.filter(|(_, e)| e.class() == "held" && e.rect().right() + 1 == right);
    let mut drawn: Vec<String> = bars.map(|(n, _)| elements[n + 2].text.clone()).collect();
    let held = last.iter().flatten().flat_map(|standing| &standing.entries);
    let named = held.map(|entry| match entry.deviation {
        Some(state) => {
            let code = draft.names.retractions.name(entry.code);
            format!("{code} then {}", draft.state(state))
        }
        None => draft.names.retractions.name(entry.code),
    });
    let mut named: Vec<String> = named.collect();
    named.sort();
    drawn.sort();
    assert_eq!(drawn, named);
}

#[test]
fn generated_runs_are_legible() {
    for seed in 0..120 {
        let (draft, journal) = drawn::generated_run(seed, 32);
        drawn::with_run(&draft, &journal, |run| assert_timeline(&draft, run));
    }
}

#[test]
fn the_begin_alone_is_a_run() {
    let draft = drawn::draft(&made::brothers().encode());
    drawn::with_run(&draft, &[], |run| assert_timeline(&draft, run));
}

/// A hundred calls and more make a wide picture.
#[test]
fn long_runs_are_legible() {
    let draft = drawn::draft(&made::looping().encode());
    let mut calls = vec![made::event(1); 32];
    calls.push(made::event(1));
    calls.push(made::signal());
    calls.extend(vec![made::lowest(); 80]);
    let journal = made::journal(&calls);
    drawn::with_run(&draft, &journal, |run| {
        assert_eq!(run.done.len(), 114);
        assert_timeline(&draft, run);
    });
}

#[test]
fn samples_are_legible() {
    for sample in samples() {
        let text = fs::read_to_string(sample.file("plan.txt")).expect("a plan");
        let draft = plan_text::read(&text).expect("a good text");
        assert_plan(&draft);
        let plan = Plan::read(draft.records.encode()).expect("an accepted plan");
        for journal in &sample.journals {
            let file = sample.file(&format!("{journal}.txt"));
            let text = fs::read_to_string(file).expect("a journal");
            let journal = journal_text::read(&text, &draft).expect("a good text");
            let run = Run::of(&plan, journal.limit, &journal.calls, None);
            assert_timeline(&draft, &run);
        }
    }
}
