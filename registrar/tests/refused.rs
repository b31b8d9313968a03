//! Texts of plans that are read and then refused: the line, and what is said.

use registrar::{place, plan_text};
use retraction::Plan;

/// The refusal of a text, its line and what is said.
fn told(text: &str) -> String {
    let draft = plan_text::read(text).unwrap_or_else(|faults| panic!("{faults:?}\n{text}"));
    let refusal = Plan::read(draft.records.encode()).expect_err(text);
    let place = place::of(refusal, &draft.records.encode(), Some(&draft));
    let at = place
        .line
        .map_or("no line".to_string(), |line| format!("line {line}"));
    format!("! {}, {at}: {}", refusal.number(), place.what)
}

/// The stored cases, with an empty line between two; the line that begins with `!`
/// is told of the text above it.
#[test]
fn refused_texts() {
    let mut numbers = Vec::new();
    for case in include_str!("faults/refused.txt").split("\n\n") {
        let is_told = |line: &&str| line.starts_with('!');
        let (stored, text): (Vec<&str>, Vec<&str>) = case.lines().partition(is_told);
        let told = told(&text.join("\n"));
        assert_eq!(stored, [&told[..]], "{case}");
        numbers.push(told[2..].split(',').next().unwrap().parse::<u16>().unwrap());
    }
    numbers.dedup();
    assert_eq!(numbers, [8, 10, 11, 12, 13, 14, 15, 16, 25, 27]);
}

#[test]
fn one_too_many() {
    let tracks: String = (0..34)
        .map(|t| format!("track t{t}\n  state x\n"))
        .collect();
    assert_eq!(
        told(&tracks),
        "! 6, line 65: this is a track too many: 32 are the most"
    );
    let states: String = (0..129).map(|s| format!("state s{s}\n")).collect();
    let states = format!("track a\n{states}");
    assert_eq!(
        told(&states),
        "! 6, line 130: this is a state too many: 128 are the most"
    );
    let steps: String = (0..258).map(|x| format!("on {} go x\n", x + 1)).collect();
    let steps = format!("track a\nstate x\n{steps}");
    assert_eq!(
        told(&steps),
        "! 6, line 259: this is a step too many: 256 are the most"
    );
    let rights: String = (0..66).map(|g| format!("right {g} move\n")).collect();
    let rights = format!("track a\nstate x\n{rights}");
    let said = "! 27, line 67: this is a right too many: 64 are the most";
    assert_eq!(told(&rights), said);
}

/// A text without a word is a plan without a track.
#[test]
fn empty_texts() {
    for text in ["", "\n\n", "# a remark", "plan p", "event 1 a\nretract 2 b"] {
        assert_eq!(told(text), "! 8, no line: no track is there", "{text}");
    }
}
