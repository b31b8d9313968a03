//! The stored runs and calls are those of this program, byte for byte.

use std::fs;
use std::path::PathBuf;

use second::journal::{self, Record, Records};
use second::limit::Limit;
use second::plan;
use second::rules;
use testing::calls;
use testing::cases::{self, Case};

/// The main program's limit.
const MAIN: Limit = Limit::MAIN;

/// The repository's root.
fn root() -> PathBuf {
    PathBuf::from(env!("CARGO_MANIFEST_DIR")).join("../..")
}

fn folder(case: &Case) -> PathBuf {
    root().join(&case.folder)
}

#[test]
fn stored_runs_are_what_this_program_prints() {
    for case in cases::all() {
        let stored = |file: &str| fs::read(folder(&case).join(file)).ok();
        let plan = case.plan.as_deref().unwrap_or_default();
        assert_eq!(stored("plan.bin"), case.plan, "{}", case.folder);
        assert_eq!(
            stored("journal.bin").as_ref(),
            Some(&case.journal),
            "{}",
            case.folder
        );
        let output = journal::unwind(plan, &case.journal);
        assert_eq!(stored("output"), Some(output), "{}", case.folder);
    }
}

#[test]
fn stored_calls_are_what_this_program_answers() {
    let stored = fs::read_to_string(root().join(calls::FILE)).expect("the stored calls");
    assert!(stored == calls::text(), "{} is another text", calls::FILE);
}

/// The answer in a line.
fn answer(line: &str) -> &str {
    line.split(';').nth(4).expect("an answer")
}

/// The answers to the stored calls whose comment starts so.
fn answers(shows: &str) -> Vec<String> {
    let calls = calls::all().into_iter();
    let shown = calls.filter(|call| call.shows.starts_with(shows));
    shown.map(|call| answer(&call.line).to_string()).collect()
}

#[test]
fn stored_calls_show_what_they_say() {
    assert_eq!(answers("P begun"), ["begun"]);
    assert_eq!(answers("a begin "), ["begun", "R17", "begun", "begun"]);
    let own = ["D0,0", "D0", "D51,65535", "D6", "0033ffff"];
    assert_eq!(answers("P's ledger under P"), own);
    let refused = ["R24", "R24", "R24", "R24", ""];
    assert_eq!(answers("P's ledger under a plan as long"), refused);
    assert_eq!(answers("P's ledger under a longer plan"), refused);
    assert_eq!(answers("the event that ends P"), ["D1,0"]);
    assert_eq!(answers("an over ledger under its plan"), ["R20", "D0"]);
    assert_eq!(answers("a mode of 3"), ["R18", "R24", ""]);
    assert_eq!(answers("P's ledger under a plan alike"), ["D1,0", "D6"]);
    assert_eq!(answers("plans alike"), ["D1,0", "R18"]);
    assert_eq!(answers("one root ended, one with an entry"), ["D2"]);
    assert_eq!(answers("one root ended, one with a scope"), ["D8"]);
    assert_eq!(answers("both roots taken back"), ["D0", "D0", "R22"]);
    let left = ["R18", "R18", "R18", "R18", ""];
    assert_eq!(answers("one root ended, one taken back"), left);
    assert_eq!(answers("both roots ended"), ["R18"]);
}

#[test]
fn stored_calls_that_finish_leave_zeros_behind_the_leading_words() {
    let finishing = [
        ("one root ended, its last entry fired", "D60,65535"),
        ("one root taken back, the other ends", "D1,0"),
        ("one root ended, the last scope abandoned", "D90,65535"),
        ("two roots of two societies, a signal finishes", "D1"),
    ];
    for (shows, answered) in finishing {
        assert_eq!(answers(shows), [answered]);
        let mut calls = calls::all().into_iter();
        let call = calls.find(|call| call.shows == shows).expect("stored");
        let left = call.line.rsplit(';').next().expect("words");
        let tracks = &left[16..left.len() - 4];
        assert!(tracks.chars().all(|digit| digit == '0'), "{shows}");
        assert!(left.ends_with("a5a5"), "{shows}");
    }
}

/// The leading words that the stored calls whose comment starts so are given,
/// and those that they leave.
fn leading_words(shows: &str) -> Vec<[String; 2]> {
    let calls = calls::all().into_iter();
    let shown = calls.filter(|call| call.shows.starts_with(shows));
    let leading = |call: calls::Stored| {
        let fields: Vec<&str> = call.line.split(';').collect();
        [fields[2], fields[5]].map(|words| words[..8].to_string())
    };
    shown.map(leading).collect()
}

#[test]
fn stored_calls_on_plans_of_each_tail_have_the_sums_that_they_say() {
    // Of four plans the length, the sum, and sums without some last bytes.
    let plans: [(u16, u16, &[u16]); 4] = [
        (96, 164, &[]),
        (82, 134, &[130]),
        (68, 114, &[106]),
        (54, 3, &[65_535, 65_524]),
    ];
    for (length, sum, cut) in plans {
        let words = |sum: u16| format!("{length:04x}{sum:04x}");
        let begun = leading_words(&format!("a plan of {length} bytes begun"));
        assert_eq!(begun, [["a5a5a5a5".to_string(), words(sum)]]);
        let refused = leading_words(&format!("a plan of {length} bytes, the last"));
        let expected: Vec<_> = cut.iter().map(|&sum| [words(sum), words(sum)]).collect();
        assert_eq!(refused, expected);
    }
    assert_eq!(answers("a plan of 54 bytes, its own ledger"), ["D1,0"]);
}

/// The answers to the stored calls whose comment starts so, and the day in the
/// words afterwards, low word first.
fn days_kept(shows: &str) -> Vec<(String, String)> {
    let calls = calls::all().into_iter();
    let shown = calls.filter(|call| call.shows.starts_with(shows));
    let kept = |call: calls::Stored| {
        let words = call.line.rsplit(';').next().expect("words");
        (answer(&call.line).to_string(), words[8..16].to_string())
    };
    shown.map(kept).collect()
}

#[test]
fn stored_calls_on_days_keep_the_day_of_an_accepted_event() {
    let kept = |answer: &str, day: &str| vec![(answer.to_string(), day.to_string())];
    assert_eq!(days_kept("P begun"), kept("begun", "53fbfffe"));
    let windows = [
        ("the day before a window", "D0,0", "00040000"),
        ("the first day of a window", "D1,0", "00050000"),
        ("the last day of a window", "D1,0", "00060000"),
        ("the day after a window", "D0,0", "00070000"),
        ("the range's first day after", "D1,0", "53fbfffe"),
        ("the range's last day after", "D1,0", "c95c0002"),
        ("an equal day", "D1,0", "00070000"),
        ("a falling day: 26", "R26", "00070000"),
        ("a signal keeps the day", "D1", "00070000"),
    ];
    for (shows, answer, day) in windows {
        assert_eq!(days_kept(shows), kept(answer, day), "{shows}");
    }
    let ready = ["D6", "D6"];
    assert_eq!(answers("a ledger of the range's"), ready);
    assert_eq!(answers("an over ledger of the first day"), ["D0"]);
    let out = ["R18", "R18", "R18", "R18", ""];
    assert_eq!(answers("a ledger of the day after the range, 18"), out);
}

#[test]
fn stored_conversions_are_the_paper_s() {
    let found = [
        ("day -109573", "D1600,1,1"),
        ("day -1", "D1899,12,31"),
        ("day 0", "D1900,1,1"),
        ("day 59", "D1900,3,1"),
        ("day 182620", "D2399,12,31"),
        ("date 1600-1-1", "D-109573"),
        ("date 1899-12-31", "D-1"),
        ("date 1900-3-1", "D59"),
        ("date 2399-12-31", "D182620"),
    ];
    for (shows, answered) in found {
        let mut calls = calls::all().into_iter();
        let call = calls.find(|call| call.shows == shows).expect("stored");
        assert_eq!(answer(&call.line), answered, "{shows}");
    }
}

/// The lines that a stored run prints.
fn lines(name: &str) -> Vec<String> {
    let folder = root().join("conformance/cases").join(name);
    let output = fs::read_to_string(folder.join("output")).expect("an output");
    output.lines().map(str::to_string).collect()
}

#[test]
fn stored_runs_end_half_withdrawn_or_are_not_over() {
    let cases = cases::all().into_iter();
    let names =
        cases.filter_map(|c| Some(c.folder.strip_prefix("conformance/cases/")?.to_string()));
    let names: Vec<String> = names.collect();
    let (mut over, mut not_over) = (0, 0);
    for name in &names {
        let lines = lines(name);
        let refused = lines.iter().filter(|line| *line == "R 20").count();
        if name.starts_with("half_withdrawn_") {
            assert_eq!(refused, 4, "{name}");
            assert!(lines.last().expect("a line").starts_with("H 0 "), "{name}");
            over += 1;
        } else if name.ends_with("_withdrawn_not_over") || name.ends_with("_left_not_over") {
            assert_eq!(refused, 0, "{name}");
            let end = ["R 22", "E 1 0 0", "S 0", "H 0 2"];
            assert_eq!(lines[lines.len() - 4..], end, "{name}");
            not_over += 1;
        }
    }
    assert_eq!((over, not_over), (7, 3));
}

#[test]
fn stored_runs_with_windows_and_days_print_what_their_names_say() {
    let runs: [(&str, &[&str]); 15] = [
        (
            "window_opens",
            &["E 10 0 0", "E 10 1 0", "E 11 1 0", "H 2 0"],
        ),
        ("window_last_day", &["E 10 1 0", "E 11 1 0", "H 2 0"]),
        ("window_passed", &["E 10 0 0", "E 10 0 0", "S 1", "H 0 0"]),
        (
            "window_of_one_day",
            &["E 10 0 0", "E 10 1 0", "E 10 0 0", "H 1 0"],
        ),
        (
            "windows_at_the_range_ends",
            &["E 10 1 0", "E 11 0 0", "E 11 1 0", "H 2 0"],
        ),
        ("window_of_one_track", &["E 1 1 0", "E 1 1 0", "H 2 0"]),
        (
            "window_keeps_scope_open",
            &[
                "E 10 1 0", "E 11 1 0", "E 12 1 0", "E 14 0 0", "E 14 1 1", "E 13 0 0", "S 1",
                "F 0 90 -", "H 1 1",
            ],
        ),
        (
            "windows_256",
            &["E 256 0 0", "E 256 1 0", "E 1 1 0", "E 2 0 0", "H 2 0"],
        ),
        ("day_equal", &["E 10 1 0", "E 11 1 0", "E 12 1 0", "H 3 0"]),
        (
            "day_kept_by_an_event_that_moves_none",
            &["E 99 0 0", "R 26", "S 1", "E 10 0 0", "R 26", "H 0 0"],
        ),
        (
            "day_of_a_refused_event_not_kept",
            &["R 19", "E 10 1 0", "H 1 0"],
        ),
        (
            "days_from_below_0",
            &["E 10 1 0", "E 11 1 0", "E 12 1 0", "H 3 0"],
        ),
        (
            "r26_falling_goes_on",
            &["E 10 1 0", "R 26", "R 26", "E 11 1 0", "H 2 0"],
        ),
        (
            "r26_out_of_range_goes_on",
            &[
                "R 26", "R 26", "R 26", "R 26", "E 10 1 0", "E 11 1 0", "H 2 0",
            ],
        ),
        (
            "r26_before_20",
            &[
                "E 10 1 0", "E 11 1 0", "E 12 1 0", "E 14 1 1", "E 13 1 0", "R 26", "R 26", "R 20",
                "R 19", "H 0 0",
            ],
        ),
    ];
    for (name, expected) in runs {
        assert_eq!(lines(name)[1..], *expected, "{name}");
    }
    let full = lines("window_of_a_full_root").split_off(33);
    let expected = ["E 2 0 0", "R 21", "R 21", "E 2 0 0", "E 3 1 0", "H 0 0"];
    assert_eq!(full, expected);
}

#[test]
fn stored_runs_of_several_societies_print_what_their_names_say() {
    let runs: [(&str, &[&str]); 21] = [
        ("society_0", &["E 10 1 0", "S 3", "F 0 50 -", "H 0 1"]),
        ("society_65535", &["E 10 1 0", "S 3", "F 0 50 -", "H 0 1"]),
        (
            "two_societies_one_root",
            &[
                "E 10 1 0", "R 28", "R 28", "S 3", "R 28", "F 0 50 -", "H 0 1",
            ],
        ),
        (
            "no_rights_nobody_moves",
            &[
                "R 28", "R 28", "R 28", "R 22", "R 22", "R 19", "R 28", "H 0 0",
            ],
        ),
        (
            "partial_event",
            &["E 1 1 0", "E 1 0 0", "E 1 1 0", "E 4 1 0", "H 2 0"],
        ),
        (
            "partial_signal",
            &[
                "E 1 1 0", "E 1 1 0", "S 1", "E 2 1 0", "F 1 60 -", "R 20", "H 0 1",
            ],
        ),
        (
            "partial_signal_finishes",
            &["E 3 1 0", "S 1", "R 20", "R 20", "H 0 0"],
        ),
        (
            "signal_turns_none",
            &["S 1", "S 0", "E 1 1 0", "S 0", "R 22", "H 1 0"],
        ),
        (
            "lowest_ready_passes_over",
            &[
                "E 1 1 0", "E 1 1 0", "S 1", "S 1", "F 1 60 -", "R 22", "F 0 50 0", "H 0 2",
            ],
        ),
        (
            "lowest_ready_22_of_another",
            &[
                "E 1 1 0", "E 1 1 0", "S 1", "R 22", "R 22", "F 0 50 0", "H 1 1",
            ],
        ),
        (
            "each_right_alone",
            &[
                "E 10 1 0", "R 28", "R 28", "R 28", "S 3", "R 28", "R 28", "R 28", "F 0 50 -",
                "H 0 1",
            ],
        ),
        (
            "rights_reach_under_a_root",
            &[
                "E 1 1 0", "E 5 0 0", "E 5 1 0", "E 6 1 0", "S 1", "S 3", "R 28", "F 3 90 -",
                "H 1 1",
            ],
        ),
        (
            "day_kept_for_other_societies",
            &["E 1 1 0", "R 26", "E 1 1 0", "H 2 0"],
        ),
        ("r28_event", &["R 28", "E 10 1 0", "H 1 0"]),
        (
            "r28_signal",
            &["E 10 1 0", "R 28", "R 28", "E 11 1 0", "H 2 0"],
        ),
        (
            "r28_fire",
            &[
                "E 10 1 0", "E 11 1 0", "S 3", "R 28", "R 22", "F 1 51 -", "H 1 1",
            ],
        ),
        (
            "r20_before_28",
            &[
                "E 10 1 0", "E 11 1 0", "E 12 1 0", "E 14 1 1", "E 13 1 0", "R 20", "R 20", "R 20",
                "R 20", "R 20", "H 0 0",
            ],
        ),
        ("r19_and_r26_before_28", &["R 19", "R 26", "R 28", "H 0 0"]),
        ("r28_before_22", &["R 28", "R 22", "H 0 0"]),
        ("r22_missing_track", &["R 22", "R 22", "R 22", "H 0 0"]),
        ("rights_64", &["E 10 1 0", "R 28", "E 11 1 0", "H 2 0"]),
    ];
    for (name, expected) in runs {
        assert_eq!(lines(name)[1..], *expected, "{name}");
    }
    let full = lines("r28_before_21").split_off(33);
    assert_eq!(full, ["R 28", "R 21", "R 28", "H 32 0"]);
    let another = lines("full_track_of_another").split_off(33);
    assert_eq!(another, ["R 21", "E 1 1 0", "R 21", "H 33 0"]);
}

/// The entries held before the first signal of a stored run.
fn held_before_signal(name: &str) -> usize {
    let folder = format!("conformance/cases/{name}");
    let case = cases::all().into_iter().find(|c| c.folder == folder);
    let case = case.expect("stored");
    let plan = plan::read(&case.plan.expect("a plan")).expect("accepted");
    let mut ledger = rules::begin(MAIN, &plan);
    for record in Records::new(&case.journal) {
        let record = record.expect("a whole record");
        if matches!(record, Record::Signal(_)) {
            break;
        }
        journal::perform(&plan, &mut ledger, record);
    }
    ledger.total_held()
}

/// The `F` lines of a stored run.
fn fired(name: &str) -> usize {
    let lines = lines(name).into_iter();
    lines.filter(|line| line.starts_with("F ")).count()
}

#[test]
fn stored_runs_of_firings_have_as_many_as_entries_held_or_fewer() {
    let counts = [
        ("sample", 3, 3),
        ("firings_as_many_as_held", 7, 7),
        ("firings_fewer_with_a_forward_root", 6, 5),
        ("firings_fewer_with_a_deviation", 7, 6),
    ];
    for (name, held, firings) in counts {
        assert_eq!(held_before_signal(name), held, "{name}");
        assert_eq!(fired(name), firings, "{name}");
        let last = format!("H {} {firings}", held - firings);
        assert_eq!(lines(name).last(), Some(&last), "{name}");
    }
    let runs: [(&str, &[&str]); 3] = [
        (
            "firings_as_many_as_held",
            &[
                "S 5", "F 3 90 -", "F 0 51 -", "R 22", "F 4 95 -", "F 3 90 -", "F 0 50 -",
                "F 2 70 -", "F 1 60 -", "R 22", "H 0 7",
            ],
        ),
        (
            "firings_fewer_with_a_forward_root",
            &[
                "S 4", "F 3 90 -", "F 3 90 -", "F 2 70 -", "F 4 95 -", "F 1 60 -", "R 22", "R 22",
                "R 22", "H 1 5",
            ],
        ),
        (
            "firings_fewer_with_a_deviation",
            &[
                "S 5", "F 0 51 0", "F 3 90 -", "F 3 90 -", "F 2 70 -", "F 4 95 -", "F 1 60 -",
                "R 22", "R 22", "H 1 6",
            ],
        ),
    ];
    for (name, expected) in runs {
        let lines = lines(name);
        let from = lines.len() - expected.len();
        assert_eq!(lines[from..], *expected, "{name}");
    }
}

#[test]
fn stored_calls_of_several_societies_are_answered_as_they_say() {
    let shared = ["D1,0", "D1,0", "D1", "R28", "D60,65535", "R28"];
    assert_eq!(answers("a root of two societies"), shared);
    let divided = [
        "D1,0", "D1,0", "D0,0", "D1", "D1", "D0", "D1", "D3", "003cffff", "D50,0", "R28",
    ];
    assert_eq!(answers("two roots of two societies"), divided);
    assert_eq!(answers("a society without rights, ready"), ["D6"]);
    assert_eq!(answers("a society without rights, entries"), ["0033ffff"]);
    assert_eq!(answers("P with 64 rights records"), ["begun"]);
    assert_eq!(answers("P without rights, ready"), ["D0"]);
}

#[test]
fn stored_calls_tell_the_largest_number_of_entries() {
    assert_eq!(answers("largest of P, track 0"), ["D2"]);
    assert_eq!(answers("largest of P, track 1"), ["D1"]);
    assert_eq!(answers("largest of P, track 2"), ["D2"]);
    assert_eq!(answers("largest of P, no such track"), ["D0"]);
    assert_eq!(answers("largest of P, track 65535"), ["D0"]);
    assert_eq!(answers("largest of P with a window"), ["D2"]);
    let roots = ["D0", "D1", "D0", "D1", "D1", "D127", "D127", "D0"];
    assert_eq!(
        answers("largest of a root "),
        [&roots[..], &["R29"]].concat()
    );
    let unbounded = ["R29", "R29", "R29", "R27"];
    assert_eq!(answers("largest of P with a deviation"), unbounded);
    assert_eq!(answers("largest of P with a self-loop"), ["R29"]);
    assert_eq!(answers("largest of P with a way back"), ["R29"]);
    assert_eq!(answers("largest of no bytes"), ["R2"]);
}

#[test]
fn stored_calls_at_either_limit_are_answered_as_they_say() {
    for (limit, most) in [("8", 8), ("32", 32)] {
        let held = |count: usize| "0007ffff".repeat(count);
        let room = [
            "D1,0", "R21", "R21", "D1,0", "D1,0", "D1,1", "R21", "D1", "D1", "D7,65535",
        ];
        let entries = [held(most), held(most - 1)];
        let found = answers(&format!("room at limit {limit},"));
        assert_eq!(found[..10], room);
        assert_eq!(found[10..], entries);
    }
    let begun = ["begun", "begun", "begun"];
    assert_eq!(answers("at limit 8, P begun"), begun);
    assert_eq!(answers("at limit 8, words beyond"), ["D1,0"]);
    let work = [
        "D1,0",
        "D1,1",
        "D1,0",
        "D3",
        "D3",
        "D6",
        "D51,65535",
        "R22",
        "0032ffff005affff",
        "0033ffff",
        "0034ffff",
        "",
        "R20",
    ];
    assert_eq!(answers("P at limit 8, "), work);
    assert_eq!(answers("a count of 8 at limit 8"), ["D0"]);
    assert_eq!(answers("a count of 32 at limit 32"), ["D0"]);
}

#[test]
fn stored_calls_at_8_are_marked_and_no_others() {
    for call in calls::all() {
        let marked = call.line.starts_with("L8;");
        assert_eq!(marked, call.shows.contains("at limit 8"), "{}", call.shows);
        assert!(marked || call.line.starts_with("L;"), "{}", call.shows);
    }
}

#[test]
fn stored_runs_of_refused_plans_print_the_number_of_their_name_alone() {
    let mut refused = 0;
    for case in cases::all() {
        let name = case.folder.rsplit('/').next().expect("a name");
        let number = name.strip_prefix('r').and_then(|n| n.split('_').next());
        let number = number.and_then(|n| n.parse::<u8>().ok());
        let plans = number.filter(|n| *n <= 16 || [25, 27].contains(n));
        if let Some(number) = plans {
            assert_eq!(lines(name), [format!("R {number}")], "{name}");
            refused += 1;
        }
    }
    assert_eq!(refused, 75);
}

#[test]
fn stored_calls_are_refused_with_the_number_that_they_name() {
    let mut named = 0;
    for call in calls::all() {
        let said = call.shows.rsplit(": ").next().unwrap_or_default();
        if let Ok(number) = said.parse::<u8>() {
            assert_eq!(answer(&call.line), format!("R{number}"), "{}", call.shows);
            named += 1;
        }
    }
    assert_eq!(named, 127);
}

#[test]
fn every_folder_is_a_case() {
    let stored = PathBuf::from(env!("CARGO_MANIFEST_DIR")).join("../cases");
    let folders = fs::read_dir(stored).expect("cases").filter_map(Result::ok);
    let stored = folders.filter(|entry| entry.path().is_dir()).count();
    let listed = cases::all()
        .iter()
        .filter(|c| c.folder.starts_with("conformance/"))
        .count();
    assert_eq!(stored, listed);
}
