//! Lists of plans: the figures are the library's, and the columns straight.

#[allow(dead_code)]
mod common;

use common::{brothers, BROTHERS};
use registrar::draft::Draft;
use registrar::list::list;
use registrar::plan_text;
use registrar::records::Records;
use retraction::Plan;
use testing::generate::{plans, rng::Rng};
use testing::samples;

/// The list of a plan by its bytes alone.
fn of_bytes(bytes: Vec<u8>) -> String {
    let records = Records::decode(&bytes).expect("an accepted plan");
    let plan = Plan::read(bytes).expect("an accepted plan");
    list(&Draft::of_records(records), &plan)
}

#[test]
fn brothers_and_sisters() {
    let plan = Plan::read(BROTHERS).expect("an accepted plan");
    let listed = list(&brothers(), &plan);
    for line in [
        "brothers-and-sisters: Two brothers marry two sisters",
        "7 tracks, 15 states, 8 steps, no window, 1 rights record (318 bytes, sum 2175)",
        "rights over link:",
        "  1 desk: The desk that keeps the link  may move, signal and fire",
        "track 0 link: The link of the two families (root, holds at most 2)",
        "    track 1 elder: Anders and Clara (holds at most 2)",
        "  2 linked (final)",
    ] {
        assert!(listed.lines().any(|l| l == line), "{line}\n{listed}");
    }
}

/// The column where a text begins, of each line that has it.
fn columns(listed: &str, text: &str) -> Vec<usize> {
    let chars = |line: &str, at: usize| line[..at].chars().count();
    let found = |line: &str| line.find(text).map(|at| chars(line, at));
    listed.lines().filter_map(found).collect()
}

#[test]
fn each_step_and_each_replacement_has_its_retraction_beside_it() {
    let (mut bounded, mut windows) = (0, 0);
    for index in 0..2_000 {
        let mut rng = Rng::for_case(21, 1, index);
        let records = plans::records(&mut rng, 32);
        let listed = of_bytes(records.encode());
        let steps = columns(&listed, "takes back:");
        let complete = columns(&listed, "when complete:");
        assert_eq!(steps.len(), records.transitions.len(), "{listed}");
        let replaced = records.states.iter().filter(|s| s.replacement != 0);
        assert_eq!(complete.len(), replaced.count(), "{listed}");
        let mut all = steps.iter().chain(&complete);
        assert!(all.all(|column| *column == steps[0]), "{listed}");
        let deviations = columns(&listed, "then on in ").len();
        let deviating = records.transitions.iter();
        let deviating = deviating.filter(|x| x.deviation != second::plan::NONE);
        assert_eq!(deviations, deviating.count(), "{listed}");
        let figures = columns(&listed, "holds at most ").len();
        if columns(&listed, "No track has a figure").is_empty() {
            assert_eq!(figures, records.tracks.len(), "{listed}");
            bounded += 1;
        } else {
            assert_eq!(figures, 0, "{listed}");
        }
        windows += usize::from(!records.windows.is_empty());
        assert!(listed.lines().all(|line| line == line.trim_end()));
    }
    assert!(bounded > 100 && windows > 500, "{bounded}, {windows}");
}

#[test]
fn why_there_is_no_figure() {
    let listed = of_bytes(samples::two_links().encode());
    assert!(listed.contains("for there is a deviation."), "{listed}");
    let listed = of_bytes(samples::looping().encode());
    assert!(
        listed.contains("for there is a circle of steps."),
        "{listed}"
    );
    let mut silent = samples::sample_records();
    silent.rights.clear();
    let listed = of_bytes(silent.encode());
    assert!(listed.contains("Nobody has a right"), "{listed}");
}

/// The list of a plan in which a track has so many steps, each with its retraction.
fn of_steps(steps: usize) -> String {
    let step = |n: usize| format!("state s{n}\non 1 go s{} undo 9\n", n + 1);
    let text: String = (0..steps).map(step).collect();
    let text = format!("plan p\ntrack a\n{text}state s{steps} final\n");
    let draft = plan_text::read(&text).expect("a plan's text");
    let plan = Plan::read(draft.records.encode()).expect("an accepted plan");
    list(&draft, &plan)
}

/// What only the reading rooms cannot hold is told of a track.
#[test]
fn more_than_the_reading_rooms_hold() {
    let above = ", above the reading rooms' limit of 8";
    for (steps, said) in [(8, ""), (9, above), (32, above), (33, "")] {
        let listed = of_steps(steps);
        let track = format!("\ntrack 0 a (root, holds at most {steps}{said})\n");
        assert!(listed.contains(&track), "{listed}");
    }
}
