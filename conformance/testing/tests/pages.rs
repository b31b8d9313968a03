//! The examples of `docs/REFUSALS.md` and `docs/FORMATS.md` are what they say.

use std::fs;
use std::path::PathBuf;

use second::journal;
use second::manager::{self, Answer};
use second::refusal::Refusal;
use testing::samples::sample;

/// A page of the repository.
fn page(name: &str) -> String {
    let docs = PathBuf::from(env!("CARGO_MANIFEST_DIR")).join("../../docs");
    fs::read_to_string(docs.join(name)).expect("a page")
}

/// The bytes of a line: hex, a remark after `#`, and perhaps `N x` in front.
fn bytes(line: &str) -> Vec<u8> {
    let line = line.split('#').next().unwrap_or_default();
    let (times, hex) = match line.split_once(" x ") {
        Some((times, hex)) => (times.trim().parse().expect("a number"), hex),
        None => (1, line),
    };
    let byte = |word| u8::from_str_radix(word, 16).expect("two hex digits");
    let once: Vec<u8> = hex.split_whitespace().map(byte).collect();
    once.repeat(times)
}

/// The bytes under the line `name` of an indented block of the text.
fn block(text: &str, name: &str) -> Option<Vec<u8>> {
    let mut lines = text
        .lines()
        .skip_while(|line| line.trim_end() != format!("    {name}"));
    lines.next()?;
    let is_byte = |line: &&str| line.starts_with("    ") && !line.ends_with("journal");
    Some(lines.take_while(is_byte).flat_map(bytes).collect())
}

/// The number that a section's heading starts with.
fn number(section: &str) -> u8 {
    let start = section.split(". ").next();
    start.and_then(|n| n.parse().ok()).expect("a number")
}

#[test]
fn each_refusal_has_one_section() {
    let page = page("REFUSALS.md");
    let mut numbers: Vec<u8> = page.split("\n## ").skip(1).map(number).collect();
    numbers.sort_unstable();
    assert_eq!(numbers, (1..=29).collect::<Vec<u8>>());
}

#[test]
fn each_example_gets_its_refusal() {
    let page = page("REFUSALS.md");
    for section in page.split("\n## ").skip(1) {
        let number = number(section);
        let plan = match block(section, "plan") {
            Some(plan) => plan,
            None => {
                let without = [1, 17, 18, 24, 29];
                assert!(without.contains(&number), "{number} has no example");
                continue;
            }
        };
        if number == 29 {
            let answer = manager::largest(&plan, 0);
            assert_eq!(answer, Answer::Refused(Refusal::Unbounded), "{section}");
            continue;
        }
        let journal = block(section, "journal").unwrap_or_default();
        let output = String::from_utf8(journal::unwind(&plan, &journal)).expect("text");
        let line = format!("R {number}");
        let refused = output
            .lines()
            .filter(|l| l.starts_with('R'))
            .collect::<Vec<_>>();
        assert_eq!(refused, [line], "{section}");
    }
}

#[test]
fn the_sample_plan_is_the_page_s() {
    let page = page("FORMATS.md");
    let plan = block(&page, "plan").expect("plan P");
    assert_eq!(plan, sample());
    let journal = block(&page, "journal").expect("the journal");
    let output = String::from_utf8(journal::unwind(&plan, &journal)).expect("text");
    assert!(output.starts_with("PLAN 3 8 5\nE 10 1 0\n") && output.ends_with("R 22\nH 0 3\n"));
}
