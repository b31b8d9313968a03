//! The theorems that cases become.

use std::fs;
use std::io::Write;
use std::process::{Command, Stdio};

use second::limit::Limit;
use second::manager;
use testing::generate::singles::Call;
use testing::samples::{looping, rights, two_links, window};
use testing::vectors;

/// The main program's limit.
const MAIN: Limit = Limit::MAIN;

/// What the first file holds below its imports, of cases given as lines;
/// nothing where a line is no case.
fn theorems(name: &str, lines: &str) -> Option<String> {
    theorems_of("1", name, lines)
}

/// The same of so many histories.
fn theorems_of(histories: &str, name: &str, lines: &str) -> Option<String> {
    let folder = std::env::temp_dir().join(format!("theorems-{name}-{}", std::process::id()));
    fs::create_dir_all(&folder).expect("directory");
    let mut child = Command::new(env!("CARGO_BIN_EXE_theorems"))
        .arg(&folder)
        .args([histories, "20", "10"])
        .stdin(Stdio::piped())
        .stdout(Stdio::null())
        .stderr(Stdio::null())
        .spawn()
        .expect("theorems starts");
    let mut stdin = child.stdin.take().expect("standard input");
    stdin.write_all(lines.as_bytes()).expect("lines");
    drop(stdin);
    let done = child.wait().expect("theorems ends").success();
    let text = fs::read_to_string(folder.join("Cases0.antt"));
    fs::remove_dir_all(&folder).expect("directory");
    done.then(|| {
        let text = text.expect("cases");
        text.split_once("\n\n").expect("imports").1.to_string()
    })
}

#[test]
fn a_history_is_its_answers_and_its_words() {
    let expected = "-- H;0400;00010002;E7@5:1,E8@-5:2,S:3,F1:4;begun|D1,0|R26|D2|R22;0003ffff\n\
                    pub case_0 : HistoryAgrees main_terms (4 ∷ 0 ∷ []) (1 ∷ 2 ∷ []) \
                    (e 7 (pos 5) 1 ∷ e 8 (negsuc 4) 2 ∷ s 3 ∷ f 1 4 ∷ []) \
                    (done [] ∷ done (1 ∷ 0 ∷ []) ∷ refusal 26 ∷ done (2 ∷ []) ∷ \
                    refusal 22 ∷ []) \
                    (3 ∷ 65535 ∷ [])\n\
                    unfolding computing\ncase_0 = (refl, refl)\n";
    let line = "H;0400;00010002;E7@5:1,E8@-5:2,S:3,F1:4;begun|D1,0|R26|D2|R22;0003ffff\n";
    assert_eq!(theorems("history", line).as_deref(), Some(expected));
}

#[test]
fn plans_and_single_calls_have_statements_of_their_own() {
    let lines = "P;;2\nP;04;A3,8,5,2,1\nL;;0001;Y;R18;0001\nL;;;N3;;\nL;;;F9:1;R17;\n";
    let text = theorems("others", lines).expect("theorems");
    let says = |statement: &str| assert!(text.contains(statement), "{text}");
    says("case_0 : PlanAgrees ([]) (turned_back 2)\n");
    says("case_1 : PlanAgrees (4 ∷ []) (accepted_with 3 8 5 2 1)\n");
    says("case_2 : ReadyAgrees main_terms ([]) (1 ∷ []) (refusal 18) (1 ∷ [])\n");
    says("case_3 : EntriesAgree main_terms ([]) ([]) 3 ([])\n");
    says("case_4 : CallAgrees main_terms ([]) ([]) (f 9 1) (refusal 17) ([])\n");
}

#[test]
fn a_line_s_limit_is_the_terms_of_its_statement() {
    let lines = "H8;;;;begun;\nL3;;0001;Y;R17;0001\nL0;;;N3;;\nL8;;;S:1;R18;\nL32;;;F9:1;R22;\n\
                 U8;;;52\nW8;;A1,1,0,0,0;;1;1,1,1;0\nO8;;A1,1,0,0,0;;;D0,0\nO3;;A1,1,0,0,0;;0;no\n";
    let text = theorems("limits", lines).expect("theorems");
    let says = |statement: &str| assert!(text.contains(statement), "{statement}\n{text}");
    says("case_0 : HistoryAgrees reading_room_terms ([]) ([]) ([]) (done [] ∷ []) ([])\n");
    says("case_1 : ReadyAgrees (terms_of 3) ([]) (1 ∷ []) (refusal 17) (1 ∷ [])\n");
    says("case_2 : EntriesAgree (terms_of 0) ([]) ([]) 3 ([])\n");
    says("case_3 : CallAgrees reading_room_terms ([]) ([]) (s 1) (refusal 18) ([])\n");
    says("case_4 : CallAgrees main_terms ([]) ([]) (f 9 1) (refusal 22) ([])\n");
    says("case_6 : WithdrawalAgrees reading_room_terms ([]) (counts_of 1 1 0 0 0) ([]) 1 ");
    says("case_7 : OrderAgrees reading_room_terms ([]) (counts_of 1 1 0 0 0) ([]) ([]) 0 0\n");
    says("case_8 : NoOrder (terms_of 3) ([]) (counts_of 1 1 0 0 0) ([]) (0 ∷ [])\n");
    let run = theorems_of("10", "runs", "U8;;;52\n").expect("theorems");
    assert!(
        run.contains("RunAgrees reading_room_terms ([]) ([]) (82 ∷ [])"),
        "{run}"
    );
    assert_eq!(theorems("no-limit", "Lx;;;Y;R17;\n"), None);
    assert_eq!(theorems("no-word", "L65536;;;Y;R17;\n"), None);
}

#[test]
fn events_that_fill_a_track_or_are_refused_as_21_are_a_sort_of_their_own() {
    let plan = looping().encode();
    let lines: String = [3, 8, 32]
        .map(|entries| filling(&plan, Limit(entries)))
        .concat();
    let text = theorems("full", &lines).expect("theorems");
    // Of the nine events two of this sort and two others are wanted.
    assert_eq!(text.matches("pub case_").count(), 4, "{text}");
    assert!(text.contains("CallAgrees (terms_of 3)"), "{text}");
    assert!(text.contains("CallAgrees reading_room_terms"), "{text}");
}

/// The events that give a track its last entry but one and its last at a limit,
/// and the one that is refused as 21.
fn filling(plan: &[u8], limit: Limit) -> String {
    let mut words = vec![0; limit.track_start(1)];
    manager::begin(limit, plan, &mut words);
    let event = Call::Event(1, 0, 1);
    let mut lines = Vec::new();
    for _ in 0..=limit.0 {
        lines.push(vectors::call_line(limit, plan, &words, event) + "\n");
        vectors::answer(limit, plan, &mut words, event);
    }
    lines.split_off(lines.len() - 3).concat()
}

#[test]
fn calls_refused_as_24_are_a_sort_of_their_own() {
    // One root in one state, and a ledger of zeros.
    let plan = "06000100ffff0a00020000000000000004000400";
    let zeros = "0000".repeat(71);
    let line = |call: &str, answer: &str| format!("L;{plan};{zeros};{call};{answer};{zeros}\n");
    let lines = line("S:1", "R24").repeat(2) + &line("N0", "");
    let text = theorems("other-plan", &lines).expect("theorems");
    assert_eq!(text.matches("pub case_").count(), 2);
    assert!(text.contains("(s 1) (refusal 24) (0 ∷ 0 ∷"), "{text}");
    assert!(text.contains("pub case_2 : EntriesAgree"), "{text}");
}

#[test]
fn calls_with_roots_in_both_modes_are_a_sort_of_their_own() {
    let plan = two_links().encode();
    let mut words = vec![0; 138];
    manager::begin(MAIN, &plan, &mut words);
    let event = |event| Call::Event(event, -1, 1);
    for call in [event(1), Call::Signal(1), Call::Fire(0, 1), event(3)] {
        vectors::answer(MAIN, &plan, &mut words, call);
    }
    // Of two like firings and a signal, as many different ones as wanted.
    let calls = [Call::Fire(1, 1), Call::Fire(1, 1), Call::Signal(1)];
    let line = |call| vectors::call_line(MAIN, &plan, &words, call) + "\n";
    let text = theorems("parted", &calls.map(line).concat()).expect("theorems");
    assert_eq!(text.matches("pub case_").count(), 2);
    let zeros = "0 ∷ ".repeat(134);
    let sum = words[1];
    let leading = format!("166 ∷ {sum} ∷ 65535 ∷ 65535");
    let fired = format!("(f 1 1) (done (60 ∷ 65535 ∷ [])) ({leading} ∷ {zeros}[])");
    assert!(text.contains(&fired), "{text}");
    assert!(text.contains("(s 1) (done (1 ∷ []))"), "{text}");
}

#[test]
fn events_that_meet_a_window_or_are_refused_as_26_are_a_sort_of_their_own() {
    let mut plan = two_links();
    plan.windows = vec![window(0, 5, 9)];
    let plan = plan.encode();
    let mut words = vec![0; 138];
    manager::begin(MAIN, &plan, &mut words);
    // Of two like events before the window and one out of range, two wanted.
    let days = [4, 3, 200_000];
    let line = |day| vectors::call_line(MAIN, &plan, &words, Call::Event(1, day, 1)) + "\n";
    let text = theorems("dated", &days.map(line).concat()).expect("theorems");
    assert_eq!(text.matches("pub case_").count(), 2);
    assert!(
        text.contains("(e 1 (pos 4) 1) (done (1 ∷ 0 ∷ []))"),
        "{text}"
    );
    assert!(text.contains("(e 1 (pos 200000) 1) (refusal 26)"), "{text}");
}

#[test]
fn cases_that_rights_have_a_say_in_are_sorts_of_their_own() {
    let mut plan = two_links();
    plan.rights = vec![rights(1, 0, 7), rights(2, 1, 7)];
    let bytes = plan.encode();
    let mut words = vec![0; 138];
    manager::begin(MAIN, &bytes, &mut words);
    let calls = [
        Call::Signal(2),
        Call::Event(1, 0, 2),
        Call::Signal(3),
        Call::Fire(1, 1),
    ];
    let mut lines: String = calls
        .iter()
        .map(|&call| vectors::call_line(MAIN, &bytes, &words, call) + "\n")
        .collect();
    plan.rights[1].sum = 8;
    let unfit: String = plan.encode().iter().map(|b| format!("{b:02x}")).collect();
    lines += &format!("P;{unfit};27\n");
    let text = theorems("rights", &lines).expect("theorems");
    assert!(text.contains("(s 2) (done (1 ∷ []))"), "{text}");
    assert!(
        text.contains("(e 1 (pos 0) 2) (done (1 ∷ 0 ∷ []))"),
        "{text}"
    );
    assert!(text.contains("(s 3) (refusal 28)"), "{text}");
    assert!(text.contains("(turned_back 27)"), "{text}");
    // Of two calls refused as 28, as many as wanted.
    assert!(!text.contains("(f 1 1) (refusal 28)"), "{text}");
}

#[test]
fn largest_numbers_of_entries_are_an_answer_and_a_figure() {
    let plan = "06000100ffff0a00020000000000000004000400";
    let bytes = "6 ∷ 0 ∷ 1 ∷ 0 ∷ 255 ∷ 255 ∷ 10 ∷ 0 ∷ 2 ∷ 0 ∷ 0 ∷ 0 ∷ 0 ∷ 0 ∷ 0 ∷ 0 ∷ \
                 4 ∷ 0 ∷ 4 ∷ 0 ∷ []";
    let line = |call: &str, answer: &str| format!("L;{plan};;{call};{answer};\n");
    let taken = theorems("largest", &line("M0", "D0")).expect("theorems");
    let says = format!("pub case_0 : LargestAgrees ({bytes}) 0 (done []) 0\n");
    assert!(taken.contains(&says), "{taken}");
    assert!(taken.contains("\nunfolding computing bounds.of_transition "));
    assert!(taken.ends_with(" bounds.largest_of\ncase_0 = (refl, refl)\n"));
    let refused = theorems("unbounded", &line("M65535", "R29")).expect("theorems");
    let says = format!("LargestAgrees ({bytes}) 65535 (refusal 29) 0\n");
    assert!(refused.contains(&says), "{refused}");
}

#[test]
fn withdrawals_are_three_tests_and_a_number() {
    let line = "W;0400;A2,6,5,0,2;00010002;65535;1,0,1;33\n";
    let expected = format!(
        "-- {line}\
         pub case_0 : WithdrawalAgrees main_terms (4 ∷ 0 ∷ []) (counts_of 2 6 5 0 2) (1 ∷ 2 ∷ []) \
         65535 true false true 33\n\
         unfolding computing\ncase_0 = (refl, refl, refl, refl)\n"
    );
    assert_eq!(theorems("withdrawal", line), Some(expected));
    assert_eq!(theorems("no-test", "W;;A1,1,0,0,0;;1;1,2,1;0\n"), None);
}

#[test]
fn orders_of_firing_leave_two_numbers_or_are_none() {
    let given = "0400;A2,6,5,0,2;00010002";
    let says = "main_terms (4 ∷ 0 ∷ []) (counts_of 2 6 5 0 2) (1 ∷ 2 ∷ [])";
    let lines = format!("O;{given};1,0,1;D2,3\nO;{given};0,65535;no\n");
    let text = theorems("orders", &lines).expect("theorems");
    let order = format!("pub case_0 : OrderAgrees {says} (1 ∷ 0 ∷ 1 ∷ []) 2 3\n");
    assert!(text.contains(&order), "{text}");
    assert!(text.contains("\ncase_0 = (refl, refl, refl)\n"), "{text}");
    let none = format!("pub case_1 : NoOrder {says} (0 ∷ 65535 ∷ [])\n");
    assert!(text.contains(&none), "{text}");
    assert!(text.ends_with("\ncase_1 = refl\n"), "{text}");
    let empty = theorems("empty-order", &format!("O;{given};;D0,0\n"));
    let says = format!("OrderAgrees {says} ([]) 0 0\n");
    assert!(empty.expect("theorems").contains(&says));
}

#[test]
fn orders_with_many_firings_are_dropped() {
    // One root in one state, and a ledger that is over.
    let plan = "06000100ffff0a00020000000000000004000400";
    let zeros = "0000".repeat(71);
    let line = |tracks: &str| format!("O;{plan};A1,1,0,0,0;{zeros};{tracks};no\n");
    let many = ["0"; 50].join(",");
    let text = theorems("many", &(line(&many) + &line("0"))).expect("theorems");
    assert_eq!(text.matches("pub case_").count(), 1);
    assert!(text.contains("pub case_1 : NoOrder"), "{text}");
}

/// The theorem of one conversion.
fn conversion(name: &str, line: &str) -> String {
    let text = theorems(name, line).expect("theorems");
    let says = text.split(" : ").nth(1).expect("a theorem");
    says.lines().next().expect("a line").to_string()
}

#[test]
fn conversions_are_given_neither_plan_nor_words() {
    let dates = [
        (
            "L;;;D-109573;D1600,1,1;\n",
            "DateIs (negsuc 109572) 1600 1 1",
        ),
        ("L;;;D182621;R26;\n", "NoDate (pos 182621) 26"),
        ("L;;;G1899-12-31;D-1;\n", "DayIs 1899 12 31 (negsuc 0)"),
        ("L;;;G2000-3-1;D36585;\n", "DayIs 2000 3 1 (pos 36585)"),
        ("L;;;G1900-2-29;R26;\n", "NoDay 1900 2 29 26"),
    ];
    for (number, (line, says)) in dates.into_iter().enumerate() {
        assert_eq!(conversion(&format!("date-{number}"), line), says);
    }
    // The date of a late day would be slow to compute.
    let late = "L;;;D0;D1900,1,1;\nL;;;D-109172;D1601,2,5;\n";
    let early = "L;;;D-109173;D1601,2,4;\n";
    let taken = conversion("late", &format!("{late}{early}"));
    assert_eq!(taken, "DateIs (negsuc 109172) 1601 2 4");
}

#[test]
fn no_more_are_taken_than_wanted_and_none_too_large() {
    let large = format!("P;{};2\n", "00".repeat(301));
    let lines = "H;;;;begun;\n".repeat(2) + &large;
    let text = theorems("shares", &lines).expect("theorems");
    assert_eq!(text.matches("pub case_").count(), 1);
}

#[test]
fn a_line_that_is_no_case_is_refused() {
    assert_eq!(theorems("stray", "X;04\n"), None);
    assert_eq!(theorems("digits", "P;0g;2\n"), None);
}
