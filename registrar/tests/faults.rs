//! What is wrong with a text, told with its line, the words that are marked and
//! what is said.

use registrar::draft::Draft;
use registrar::fault::Fault;
use registrar::journal_text::{self, Journal};
use registrar::plan_text;
use retraction::Limit;

/// The stored cases, with an empty line between two. Lines that begin with `!` are
/// told of the text above them: the line, the characters that are marked, none
/// where the mark is behind the line's end, and what is said.
fn assert_stored(cases: &str, read: impl Fn(&str) -> Result<(), Vec<Fault>>) -> usize {
    let cases: Vec<&str> = cases.split("\n\n").collect();
    for case in &cases {
        let is_told = |line: &&str| line.starts_with('!');
        let (told, text): (Vec<&str>, Vec<&str>) = case.lines().partition(is_told);
        let faults = read(&text.join("\n")).expect_err(case);
        let shown = |fault: &Fault| {
            let (start, count) = fault.mark.expect("a mark");
            let line = text[fault.line - 1].chars();
            let marked: String = line.skip(start).take(count).collect();
            format!("! {} |{marked}| {}", fault.line, fault.what)
        };
        let found: Vec<String> = faults.iter().map(shown).collect();
        assert_eq!(found, told, "{case}");
    }
    cases.len()
}

#[test]
fn faults_of_plans() {
    let cases = include_str!("faults/plans.txt");
    let read = assert_stored(cases, |text| plan_text::read(text).map(|_| ()));
    assert!(read > 80, "{read}");
}

#[test]
fn faults_of_journals() {
    let cases = include_str!("faults/journals.txt");
    let read = assert_stored(cases, |text| journal_text::read(text, &plan()).map(|_| ()));
    assert!(read > 25, "{read}");
}

/// The plan of the journals.
fn plan() -> Draft {
    let text = "plan p\nevent 1 asked\nsociety 3 desk\n\
                track film\n  right desk move\n  state x\n    on asked go x";
    plan_text::read(text).expect("a plan")
}

/// What is missing at the end is marked behind the last word.
#[test]
fn marks_behind_the_end() {
    let text = "track a\n  state x   # a remark\n    on 1 go";
    let faults = plan_text::read(text).expect_err(text);
    assert_eq!(faults.len(), 1);
    assert_eq!(faults[0].mark, Some((11, 1)));
    let shown = "a.txt:3: a state is wanted here\n      on 1 go\n             ^\n";
    assert_eq!(faults[0].show("a.txt", text), shown);
}

#[test]
fn at_most_20_faults_in_the_order_of_lines() {
    let text = format!("track a in nowhere\n{}", "stat\n".repeat(30));
    let faults = plan_text::read(&text).expect_err(&text);
    let lines: Vec<usize> = faults.iter().map(|fault| fault.line).collect();
    assert_eq!(lines, (1..=20).collect::<Vec<_>>());
    let journal = format!("journal\n{}", "banana\n".repeat(30));
    let faults = journal_text::read(&journal, &plan()).expect_err(&journal);
    assert_eq!(faults.len(), 20);
}

/// What stands under a misspelt line is read as if it were spelt well.
#[test]
fn one_misspelt_line_is_one_fault() {
    let text = "trakc film\n  staet open\n    on 1 go open\n  right 3 move";
    let faults = plan_text::read(text).expect_err(text);
    let lines: Vec<usize> = faults.iter().map(|fault| fault.line).collect();
    assert_eq!(lines, [1, 2]);
}

/// More than 65,535 of a sort are not to be numbered by 16 bits.
#[test]
fn too_many_to_number() {
    let rights = |count| format!("track a\nstate x\n{}", "right 1 move\n".repeat(count));
    let most = plan_text::read(&rights(65_535)).expect("as many as fit");
    assert_eq!(most.records.grants.len(), 65_535);
    let faults = plan_text::read(&rights(65_536)).expect_err("one too many");
    assert_eq!((faults.len(), faults[0].line), (1, 65_538));
}

#[test]
fn one_line_more() {
    let journal = journal_text::read("journal of p\non 5 as desk", &plan()).expect("a journal");
    let read = |line: &str, journal: &Journal| journal_text::read_line(line, &plan(), journal);
    let call = read("event asked", &journal).expect("a call");
    assert_eq!(journal_text::line_of(call, &plan()), "event asked");
    let call = read("on 7 as 4 event 0", &Journal::default()).expect("a call");
    let text = "journal of p\non 1900-01-08 as 4\n  event 0\n";
    let written = journal_text::write(&[call], Limit::Main, &plan());
    assert_eq!(written, text);
    let wanted = "a call is wanted here: 'event EVENT', 'withdraw' or 'take back ..'";
    for (line, marked, what) in [
        ("on 7", (4, 1), wanted),
        ("", (0, 0), wanted),
        (
            "event askd",
            (6, 4),
            "there is no event 'askd'; did you mean 'asked'?",
        ),
        (
            "at limit 8",
            (0, 2),
            "the limit stands on the first line: journal [of NAME] [at limit 8]",
        ),
        (
            "withdraw \"",
            (9, 1),
            "this quote is not closed on its line",
        ),
    ] {
        let faults = read(line, &journal).expect_err(line);
        let found: Vec<_> = faults
            .iter()
            .map(|f| (f.line, f.mark, &f.what[..]))
            .collect();
        assert_eq!(found, [(1, Some(marked), what)]);
    }
}
